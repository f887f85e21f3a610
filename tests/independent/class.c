/* class.c - the class of a frame, and the least length of each kind. */
#include "rules.h"

enum { MANAGEMENT = 0, CONTROL = 1, DATA = 2, BLOCK_ACK_REQUEST = 8, BLOCK_ACK = 9 };
enum { TO_OR_FROM_DS = 0x03, PROTECTED = 0x40 }; /* in the second octet of Frame Control */

/* The one fixed list of classes, [type][subtype]; 0 is no class. */
static const uint8_t classes[4][16] = {
    { 2, 2, 2, 2, 1, 1, 0, 0, 1, 1, 2, 1, 1, 3, 3, 0 }, /* management */
    { 0, 0, 0, 0, 0, 0, 0, 0, 3, 3, 3, 1, 1, 1, 1, 1 }, /* control */
    { 3, 3, 3, 3, 3, 3, 3, 3, 3, 3, 3, 3, 3, 0, 3, 3 }, /* data */
    { 0 },                                              /* type 3: none */
};

/* Least lengths, [type][subtype]: CTS and ACK 10, other control 16, data and management 24, but
   more for the management frames with fixed fields. Frames without a class never ask. */
static const uint8_t least[3][16] = {
    { 28, 30, 34, 30, 24, 24, 24, 24, 24, 24, 26, 30, 26, 24, 24, 24 },
    { 16, 16, 16, 16, 16, 16, 16, 16, 16, 16, 16, 16, 10, 10, 16, 16 },
    { 24, 24, 24, 24, 24, 24, 24, 24, 24, 24, 24, 24, 24, 24, 24, 24 },
};

/* Frames that the list has in class 3 and that are class 1 in an ad hoc network: all Action frames,
   block ack and its request, and data from one end straight to the other. */
static bool direct(const uint8_t *frame)
{
    unsigned type = frame[0] >> 2 & 3, subtype = frame[0] >> 4;

    switch (type) {
    case MANAGEMENT:
        return subtype == PT_ACTION || subtype == PT_ACTION_NO_ACK;
    case CONTROL:
        return subtype == BLOCK_ACK_REQUEST || subtype == BLOCK_ACK;
    default:
        return type == DATA && (frame[1] & TO_OR_FROM_DS) == 0;
    }
}

/* An unprotected Action frame that has a category, and category 4. */
static bool public_action(const uint8_t *frame, size_t len)
{
    return frame[0] >> 4 == PT_ACTION && (frame[0] >> 2 & 3) == MANAGEMENT &&
           (frame[1] & PROTECTED) == 0 && len > PT_CATEGORY &&
           frame[PT_CATEGORY] == PT_CATEGORY_PUBLIC;
}

/* By type and subtype, but for a Public Action in any role, and direct frames in the third. */
unsigned pt_class_of(uint8_t role, const uint8_t *frame, size_t len)
{
    unsigned listed = classes[frame[0] >> 2 & 3][frame[0] >> 4];

    if (listed == 3 && (public_action(frame, len) || (role == PT_AD_HOC && direct(frame))))
        return 1;
    return listed;
}

/* By the first octet, which has type and subtype. */
unsigned pt_least_length(uint8_t first)
{
    return least[first >> 2 & 3][first >> 4];
}
