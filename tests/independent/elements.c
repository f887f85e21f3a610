/* elements.c - the elements of a (re)association response: whether they are whole, and the comeback they give. */
#include "rules.h"

enum { ELEMENTS = 30 }; /* where the elements begin, behind capability, status and AID */

/* The elements, each an id, a length and so many octets of contents, end with the frame: the walk
   comes to its end exactly. An element that would pass the end breaks them, and so does one octet
   left over, an id without a length. 30 octets have no elements, and these are whole. */
bool pt_elements_whole(const uint8_t *frame, size_t len)
{
    size_t at = ELEMENTS;

    while (len - at >= 2 && len - at - 2 >= frame[at + 1])
        at += 2u + frame[at + 1];
    return at == len;
}

/* The hold after a rejected (re)association: the value of the first element of id 56, length 5 and
   type 3, else 2 s. The elements are whole: a response whose elements are not was refused. */
uint32_t pt_comeback(const uint8_t *frame, size_t len)
{
    for (size_t at = ELEMENTS; at < len; at += 2u + frame[at + 1])
        if (frame[at] == PT_TIMEOUT_INTERVAL && frame[at + 1] == 5 && frame[at + 2] == PT_COMEBACK)
            return pt_get32(frame + at + 3);
    return PT_HOLD_USUAL;
}
