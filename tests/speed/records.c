/* records.c - the events of a stream as records of a bench input: mark 0B 03, kind, length, body; numbers little-endian. */
#include "records.h"

#include <stdio.h>
#include <stdlib.h>
#include <string.h>

static uint8_t buffer[STREAM_EVENTS * (RECORD_HEAD + 2304)];
static size_t filled;

static void put(uint64_t number, unsigned octets)
{
    for (unsigned i = 0; i < octets; i++, number >>= 8)
        buffer[filled++] = (uint8_t)number;
}

static void put_head(uint8_t kind, size_t length)
{
    if (filled + RECORD_HEAD + length > sizeof buffer) {
        fprintf(stderr, "speed: the records of the stream are longer than %zu octets\n", sizeof buffer);
        exit(1);
    }
    put(0x030b, 2);
    put(kind, 1);
    put(length, 2);
}

static void put_record(const struct event *e)
{
    if (e->kind == EVENT_FRAME) {
        put_head(2, e->length);
        memcpy(buffer + filled, e->frame, e->length);
        filled += e->length;
    } else if (e->kind == EVENT_PRIMITIVE) {
        put_head(1, 9);
        put(e->primitive, 1);
        put(e->address, 6);
        put(e->number, 2);
    } else if (e->kind == EVENT_LINKS) {
        put_head(4, 7 + 6 * (size_t)e->length);
        put(e->address, 6);
        put(e->length, 1);
        for (uint32_t i = 0; i < e->length; i++)
            put(e->links[i], 6);
    } else {
        put_head(3, 2);
        put(e->number, 2);
    }
}

size_t runs_of(const struct stream *stream, struct run *runs, size_t most)
{
    size_t count = 0;

    filled = 0;
    for (size_t i = 0; i < stream->count && count < most; count++) {
        struct run *r = &runs[count];
        size_t start = filled;

        *r = (struct run){ buffer + start, 0, 0 };
        for (; i < stream->count && r->events < RUN_EVENTS; i++, r->events++)
            put_record(&stream->events[stream->setup + i]);
        r->octets = filled - start;
    }
    return count;
}
