/* tally.h - how many calls gave what; a run that never saw some answer has not tested it. */
#ifndef TALLY_H
#define TALLY_H

#include "call.h"

/* A call, its answer, and the octets of out behind it. */
void tally_add(const struct call *call, const struct pt_answer *answer, const uint8_t *out);
unsigned long tally_calls(void);

/* Prints the counts; false, with a line, where some value that an answer can have was never seen. */
bool tally_print(void);

#endif
