/* lent.h - the memory that a call is lent: between pages that nobody may touch, with guard octets where a page does not begin. */
#ifndef LENT_H
#define LENT_H

#include "chance.h"

enum lent { LENT_TABLE, LENT_SETTINGS, LENT_FRAME, LENT_OUT, LENT_ANSWER, LENT_STACK, LENT_ALL };

enum { LENT_MOST = 8192 };

/* Takes the memory from the system; false where that fails. */
bool lent_start(void);

/* Puts the contents into the memory: against its last page, against its first, or at any alignment between guards. */
uint8_t *lend(enum lent which, struct chance *chance, const uint8_t *contents, size_t length);

/* True where the octets round what was lent last are still as they were. */
bool lent_round_about(enum lent which);

/* The top of a stack of this many octets (a multiple of 16), below which nobody may write. */
uint8_t *lent_stack(size_t octets);

#endif
