/* bench.h - the bench program of the independent core: its records, its events, what it prints of them. */
#ifndef BENCH_H
#define BENCH_H

#include "rules.h"

#include <stdio.h>

enum { SCRATCH = 256 }; /* lent to each event */
enum record_kind { SETTINGS = 0, PRIMITIVE = 1, FRAME = 2, CLOCK = 3, LINKS = 4 };
enum got { GOT_RECORD, GOT_END, GOT_FAULT, GOT_READ_ERROR };
/* Lengths of a list of links: device and count, then each link. */
enum { LINKS_FIRST = 7, LINKS_EACH = 6 };

struct input {
    unsigned kind;
    size_t length;
    uint8_t body[PT_FRAME_MAX];
};

/* One run: where its records come from, the settings once they are read, the table, and the last event
   taken with its answer. All but `from` begins at zero. */
struct bench {
    FILE *from;
    bool begun;
    struct pt_settings settings;
    struct pt_record table[PT_PLACES];
    struct input in;
    struct pt_answer answer;
    uint8_t scratch[SCRATCH];
    uint64_t events;
};

/* Records and events (input.c). */
enum got bench_read(FILE *from, struct input *in, bool first);
enum got bench_take(struct bench *b);
void bench_answer(struct bench *b);
uint64_t bench_link_in(const uint8_t *body, size_t place);

/* What is printed of an event (lines.c). */
int bench_line(char *text, size_t size, const struct bench *b);
void bench_trace(const struct bench *b);
void bench_beside(const struct bench *b);
void bench_place(int place, const struct pt_record *r);

#endif
