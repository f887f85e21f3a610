/* input.c - records of the bench program, and the events they are. */
#include "bench.h"

#include <string.h>

enum { HEADER = 5 };
/* Lengths: the first settings, with edition and protection behind them, with a query's times too,
   with a network's address too. */
enum { SETTINGS_FIRST = 12, SETTINGS_EDITIONS = 14, SETTINGS_QUERY = 18, SETTINGS_NETWORK = 24 };
enum { LINKS_MOST = LINKS_FIRST + 255 * LINKS_EACH };

/* The length each kind of record must have: 12, 14, 18 or 24, 9, a frame of 0 to 4,096, 2, and for
   links some 7 + 6 x count, whose count comes in the body. */
static bool length_fits(unsigned kind, size_t length)
{
    switch (kind) {
    case SETTINGS:
        return length == SETTINGS_FIRST || length == SETTINGS_EDITIONS ||
               length == SETTINGS_QUERY || length == SETTINGS_NETWORK;
    case PRIMITIVE:
        return length == 9;
    case FRAME:
        return length <= PT_FRAME_MAX;
    case CLOCK:
        return length == 2;
    case LINKS:
        return length >= LINKS_FIRST && length <= LINKS_MOST;
    default:
        return false;
    }
}

/* Reads one record: mark 0B 03, kind, length, body. Settings come first and only there. */
enum got bench_read(FILE *from, struct input *in, bool first)
{
    uint8_t head[HEADER];
    size_t n = fread(head, 1, HEADER, from);

    if (n < HEADER)
        return ferror(from) ? GOT_READ_ERROR : n == 0 ? GOT_END : GOT_FAULT;
    in->kind = head[2];
    in->length = pt_get16(head + 3);
    if (head[0] != 0x0B || head[1] != 0x03 || (in->kind == SETTINGS) != first ||
        !length_fits(in->kind, in->length))
        return GOT_FAULT;
    if (fread(in->body, 1, in->length, from) < in->length)
        return ferror(from) ? GOT_READ_ERROR : GOT_FAULT;
    if (in->kind == LINKS && in->length != LINKS_FIRST + (size_t)LINKS_EACH * in->body[6])
        return GOT_FAULT;
    return GOT_RECORD;
}

/* Role, own address, RSNA, authentication and association timeouts, then edition and protection, 1
   and 0 where the record does not have them, then a query's retry and maximum times, 201 and 1,000
   where it does not, then the network's address, else 0. Out of range is no fault here. */
static void take_settings(struct pt_settings *s, const uint8_t *body, size_t length)
{
    s->role = body[0];
    s->own = pt_get48(body + 1);
    s->rsna = body[7];
    s->auth_timeout = pt_get16(body + 8);
    s->assoc_timeout = pt_get16(body + 10);
    s->edition = length < SETTINGS_EDITIONS ? 1 : body[12];
    s->protection = length < SETTINGS_EDITIONS ? 0 : body[13];
    s->query_retry = length < SETTINGS_QUERY ? PT_QUERY_RETRY_USUAL : pt_get16(body + 14);
    s->query_maximum = length < SETTINGS_QUERY ? PT_QUERY_MAXIMUM_USUAL : pt_get16(body + 16);
    s->network = length < SETTINGS_NETWORK ? 0 : pt_get48(body + 18);
}

/* Takes the next event, before the first the settings: GOT_RECORD where there is one to answer. */
enum got bench_take(struct bench *b)
{
    enum got got;

    if (!b->begun) {
        got = bench_read(b->from, &b->in, true);
        if (got != GOT_RECORD)
            return got;
        take_settings(&b->settings, b->in.body, b->in.length);
        b->begun = true;
    }
    got = bench_read(b->from, &b->in, false);
    if (got == GOT_RECORD)
        b->events++;
    return got;
}

/* One of the links in the body of a list. */
uint64_t bench_link_in(const uint8_t *body, size_t place)
{
    return pt_get48(body + LINKS_FIRST + LINKS_EACH * place);
}

/* Primitive 12; more links than a device can have are counted only. */
static struct pt_answer run_links(struct bench *b, const uint8_t *body)
{
    uint64_t links[PT_LINKS] = { 0 };

    for (size_t i = 0; i < body[6] && i < PT_LINKS; i++)
        links[i] = bench_link_in(body, i);
    return pt_link(&b->settings, b->table, pt_get48(body), links, body[6], SCRATCH);
}

static struct pt_answer run(struct bench *b, const uint8_t *body)
{
    switch (b->in.kind) {
    case PRIMITIVE:
        return pt_ask(&b->settings, b->table, body[0], pt_get48(body + 1), pt_get16(body + 7),
                      b->scratch, SCRATCH);
    case FRAME:
        return pt_receive(&b->settings, b->table, body, b->in.length, b->scratch, SCRATCH);
    case LINKS:
        return run_links(b, body);
    default:
        return pt_clock(&b->settings, b->table, pt_get16(body), b->scratch, SCRATCH);
    }
}

/* Answers the event taken, with 256 zero bytes of scratch. */
void bench_answer(struct bench *b)
{
    memset(b->scratch, 0, SCRATCH);
    b->answer = run(b, b->in.body);
}
