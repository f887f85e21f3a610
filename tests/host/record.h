/* record.h - calls written to a file with what must come of them, for tests/targets/replay.c, which makes them again elsewhere. */
#ifndef RECORD_H
#define RECORD_H

#include "call.h"

/* From here on about one call in so many is recorded; false where the file can't be written. */
bool record_start(const char *path, unsigned one_in);

/* Records a call, or not: what it was given, and the table, out and answer that it must leave. */
void record(const struct call *call, const uint8_t *settings, const struct pt_answer *answer, const uint8_t *table,
            const uint8_t *out, const uint8_t *octets);

/* The same of many events in one call, of which this call has settings and table. */
struct batch {
    const uint8_t *records;
    size_t octets, out_octets, answer_octets;
    size_t played, written; /* what must come of it: how many events, and octets in out */
};
void record_batch(const struct call *call, const struct batch *batch, const uint8_t *settings, const uint8_t *table, const uint8_t *out,
                  const uint8_t *answers);

/* Ends the file and says how many calls are in it; false where some octet was not written. */
bool record_end(void);

#endif
