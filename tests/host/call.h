/* call.h - one call of the library, held against the independent program's functions. */
#ifndef CALL_H
#define CALL_H

#include "chance.h"
#include "forms.h"

enum call_kind { CALL_RECEIVE, CALL_ASK, CALL_PASS, CALL_LINKS, CALL_KINDS };

/* What sort of table a call was lent, for the count at the end. */
enum table_kind { TABLE_CORPUS, TABLE_WALK, TABLE_DRAWN, TABLE_SPOILT, TABLE_RANDOM, TABLE_OF_OTHER_LENGTH, TABLE_KINDS };

enum { TABLE_MOST = 1600, SETTINGS_MOST = 64, FRAME_MOST = 5000, OUT_MOST = 4200, ANSWER_MOST = 64 };

struct call {
    enum call_kind kind;
    peer_settings settings;
    size_t settings_octets; /* lent: so many of the settings' octets, and zeros behind them */
    uint8_t table[TABLE_MOST]; /* after the call: as the call left it */
    size_t table_octets;
    enum table_kind table_kind;
    uint8_t primitive;
    uint64_t address;
    uint16_t number; /* code or clock step */
    uint8_t frame[FRAME_MOST]; /* or the device and links that are named */
    size_t frame_octets;
    size_t out_octets, answer_octets;
    const char *source; /* where the call comes from, and which one of there */
    unsigned long index;
};

/* Makes the call, on a stack of PEER_STACK_OCTETS, and compares the answer and every octet that was lent, and round about. At a
   difference, or where the library faults or does not end, prints the whole call and ends the program with status 1. */
struct pt_answer checked(struct call *call, struct chance *chance);

/* What must come of a call, by the independent functions: the answer. `table`, a copy of the call's own, and `out` become what it leaves. */
struct pt_answer call_expected(const struct call *call, uint8_t *table, uint8_t *out);

/* One call with the memory that it is lent, and its result. */
struct lent_call {
    const struct call *call;
    uint8_t *table, *settings, *frame, *out, *answer;
    uint64_t result;
};

/* Makes the call, as it is, of a struct lent_call. */
void call_library(void *lent);

/* Makes a call of any function on a stack of PEER_STACK_OCTETS; what faults there is told as this call. */
void call_bounded(const struct call *call, void (*made)(void *), void *given);

/* The call that the library is at, or NULL. */
extern const struct call *volatile call_under_way;

/* Prints everything that a call was given, in hexadecimal. */
void call_print(const struct call *call);

/* From here on a fault, or an alarm, prints the call under way and ends the program with status 1. */
void call_watch(void);

#endif
