/* stack.c - stack use by paint: the octets below this file's own frame are painted, the call runs, and the lowest that changed is looked
   for. The same call of functions that return at once tells what the caller itself takes. */
#include "stack.h"
#include "peer_table_octets.h"

enum { AREA = 2560, PAINT = 0x5A };

struct functions {
    uint64_t (*receive)(uint8_t *, uint64_t, const uint8_t *, uint64_t, const uint8_t *, uint64_t, uint8_t *, uint64_t, uint8_t *, uint64_t);
    uint64_t (*ask)(uint8_t *, uint64_t, const uint8_t *, uint64_t, uint8_t, uint64_t, uint16_t, uint8_t *, uint64_t, uint8_t *, uint64_t);
    uint64_t (*pass)(uint8_t *, uint64_t, const uint8_t *, uint64_t, uint16_t, uint8_t *, uint64_t, uint8_t *, uint64_t);
    uint64_t (*links)(uint8_t *, uint64_t, const uint8_t *, uint64_t, const uint8_t *, uint64_t, uint8_t *, uint64_t, uint8_t *, uint64_t);
    uint64_t (*run)(uint8_t *, uint64_t, const uint8_t *, uint64_t, const uint8_t *, uint64_t, uint8_t *, uint64_t, uint8_t *, uint64_t);
};

static uint64_t no_receive(uint8_t *t, uint64_t tn, const uint8_t *s, uint64_t sn, const uint8_t *f, uint64_t fn, uint8_t *o, uint64_t on,
                           uint8_t *a, uint64_t an)
{
    (void)t, (void)tn, (void)s, (void)sn, (void)f, (void)fn, (void)o, (void)on, (void)a, (void)an;
    return 0;
}

static uint64_t no_ask(uint8_t *t, uint64_t tn, const uint8_t *s, uint64_t sn, uint8_t p, uint64_t d, uint16_t c, uint8_t *o, uint64_t on,
                       uint8_t *a, uint64_t an)
{
    (void)t, (void)tn, (void)s, (void)sn, (void)p, (void)d, (void)c, (void)o, (void)on, (void)a, (void)an;
    return 0;
}

static uint64_t no_pass(uint8_t *t, uint64_t tn, const uint8_t *s, uint64_t sn, uint16_t d, uint8_t *o, uint64_t on, uint8_t *a, uint64_t an)
{
    (void)t, (void)tn, (void)s, (void)sn, (void)d, (void)o, (void)on, (void)a, (void)an;
    return 0;
}

/* Through a volatile pointer, so that no compiler sees which function it is. */
static const struct functions library = { peer_receive_octets, peer_ask_octets, peer_pass_octets, peer_links_octets, peer_run_octets };
static const struct functions nothing = { no_receive, no_ask, no_pass, no_receive, no_receive };
static const struct functions *volatile called;
static size_t deepest;

static __attribute__((noinline)) uint64_t make(const struct replayed *c)
{
    const struct functions *f = called;
    uint8_t *table = c->slices[0].at, *settings = c->slices[1].at, *frame = c->slices[2].at, *out = c->slices[3].at,
            *answer = c->slices[4].at;
    uint64_t tables = c->slices[0].octets, sets = c->slices[1].octets, outs = c->slices[3].octets, answers = c->slices[4].octets;

    if (c->kind == 0)
        return f->receive(table, tables, settings, sets, frame, c->slices[2].octets, out, outs, answer, answers);
    if (c->kind == 1)
        return f->ask(table, tables, settings, sets, c->primitive, c->address, c->number, out, outs, answer, answers);
    if (c->kind == 3)
        return f->links(table, tables, settings, sets, frame, c->slices[2].octets, out, outs, answer, answers);
    if (c->kind == CALL_RUN)
        return f->run(table, tables, settings, sets, frame, c->slices[2].octets, out, outs, answer, answers);
    return f->pass(table, tables, settings, sets, c->number, out, outs, answer, answers);
}

/* Twice the same frame on the stack: once it is painted; after the call, how much of it is no longer paint. */
static __attribute__((noinline)) size_t painted(int anew)
{
    volatile uint8_t area[AREA];
    size_t i = 0;

    if (anew)
        for (i = 0; i < AREA; i++)
            area[i] = PAINT;
    else
        while (i < AREA && area[i] == PAINT)
            i++;
    return AREA - i;
}

uint64_t call_watched(const struct replayed *c)
{
    uint64_t result;
    size_t empty, full;

    called = &nothing;
    painted(1);
    make(c);
    empty = painted(0);
    called = &library;
    painted(1);
    result = make(c);
    full = painted(0);
    if (full - empty > deepest)
        deepest = full - empty;
    return result;
}

size_t stack_deepest(void)
{
#if defined(__x86_64__)
    return deepest + sizeof(void *); /* the return address is pushed, for a function that returns at once too */
#else
    return deepest;
#endif
}
