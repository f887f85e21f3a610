/* runs.h - the five ways to make calls: bench records from files, singly and many in one call, long walks, single shots, and sweeps over every value of
   one thing. */
#ifndef RUNS_H
#define RUNS_H

#include "call.h"

/* Plays a file of bench records on one table, with refused calls between; false, with a line, where the file can't be read. */
bool run_corpus(const char *path, struct chance *chance);

/* The octets of the event's record that begins here, and the call that it is; 0 where it is none. */
size_t event_at(const uint8_t *records, size_t count, struct call *call);

/* Plays records by peer_run_octets, in batches of many sizes, from the call's settings and table on. Ends the program at the first difference from the
   single calls or from the independent program. */
void run_batches(const struct call *start, const uint8_t *records, size_t octets, struct chance *chance);

/* How many batches there were and why each ended; false where some way to end was never seen. */
bool batches_print(void);

/* A walk of about this many calls on one table that stays alive. */
void run_walk(unsigned long number, unsigned long calls, struct chance *chance);

/* One call on a table drawn for it: well formed, spoilt, random or of another length; now and then settings out of range. */
void run_shot(unsigned long number, struct chance *chance);

/* Every exchange number, state, primitive, length of what is lent, and setting near its limits. */
void run_sweeps(struct chance *chance);

#endif
