/* records.h - the events of a stream as records of a bench input, for `peer_run_octets`. */
#ifndef RECORDS_H
#define RECORDS_H

#include "stream.h"

enum { RUN_EVENTS = 64, RECORD_HEAD = 5 };

/* The call as include/peer_table_octets.h declares it. */
uint64_t peer_run_octets(uint8_t *table, uint64_t table_octets, const uint8_t *settings, uint64_t settings_octets, const uint8_t *records,
                         uint64_t records_octets, uint8_t *out, uint64_t out_octets, uint8_t *answers, uint64_t answers_octets);

/* The records of up to RUN_EVENTS events. */
struct run {
    const uint8_t *records;
    uint64_t octets, events;
};

/* The stream's events, behind its setup, in runs; gives how many runs there are. */
size_t runs_of(const struct stream *stream, struct run *runs, size_t most);

#endif
