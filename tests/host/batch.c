/* batch.c - many events in one call: a stream of records through peer_run_octets, in batches of many sizes, with little room and with much. What must come of
   each batch is made of single calls, by the library and by the independent functions, one after the other, as the header says. */
#include "draw.h"
#include "lent.h"
#include "record.h"
#include "runs.h"

#include <stdio.h>
#include <stdlib.h>
#include <string.h>

enum { RECORDS_MOST = 60000, BATCH_OUT = 20000, ANSWERS = 200, BATCH_ANSWERS = (ANSWERS + 1) * PEER_ANSWER_OCTETS };

/* Why a batch ends: no event's record stands there, there is no room for an answer, or none for what the event may write. */
enum ending { ENDS_RECORDS, ENDS_ANSWERS, ENDS_OUT, ENDINGS };

/* What a batch leaves, and what it was lent. */
struct left {
    uint8_t table[TABLE_MOST], out[BATCH_OUT], answers[BATCH_ANSWERS];
};

struct lent_batch {
    const struct call *call;
    const struct batch *batch;
    uint8_t *table, *settings, *records, *out, *answers;
    uint64_t result;
};

static unsigned long batches, events, endings[ENDINGS], refused;

static void differs(const struct call *c, const struct batch *b, const char *what)
{
    printf("host: DIFFERENCE: peer_run_octets: %s\n", what);
    printf("  records of %zu octets, %zu for answers; %zu events must be played, and %zu octets written\n", b->octets, b->answer_octets, b->played,
           b->written);
    for (size_t i = 0; i < b->octets; i++)
        printf("%s%02x", i % 32 == 0 ? "\n    " : "", b->records[i]);
    printf("\n  the call that it begins with:\n");
    call_print(c);
    fflush(stdout);
    exit(1);
}

/* The single call at this place, by library and by independent functions; the octets written. */
static size_t single(struct call *c, const uint8_t *settings, struct left *left, const struct batch *b)
{
    static struct left library;
    uint8_t answer[PEER_ANSWER_OCTETS], *out = left->out + b->written, set[SETTINGS_MOST];
    struct lent_call l = { .call = c, .table = library.table, .settings = set, .frame = c->frame, .out = library.out, .answer = answer };
    struct pt_answer a;

    memcpy(set, settings, sizeof set);
    memcpy(library.table, c->table, c->table_octets);
    memcpy(library.out, out, c->out_octets);
    call_library(&l);
    a = call_expected(c, left->table, out);
    octets_of_answer(&a, left->answers + PEER_ANSWER_OCTETS * b->played);
    if (l.result != a.refusal || memcmp(answer, left->answers + PEER_ANSWER_OCTETS * b->played, sizeof answer) != 0 ||
        memcmp(library.table, left->table, c->table_octets) != 0 || memcmp(library.out, out, c->out_octets) != 0)
        differs(c, b, "the single call itself");
    memcpy(c->table, left->table, c->table_octets);
    refused += a.refusal == PT_ILL_FORMED;
    return a.written;
}

/* What must come of a batch, one event after the other; gives the octets of the records that are played. */
static size_t expected(const struct call *start, const uint8_t *settings, struct batch *b, struct left *left)
{
    static struct call c;
    size_t at = 0;

    c = *start;
    c.answer_octets = PEER_ANSWER_OCTETS;
    memcpy(left->table, c.table, c.table_octets);
    for (;;) {
        size_t octets = event_at(b->records + at, b->octets - at, &c), room = b->out_octets - b->written;
        enum ending ending = octets == 0 ? ENDS_RECORDS : b->answer_octets - PEER_ANSWER_OCTETS * b->played < PEER_ANSWER_OCTETS ? ENDS_ANSWERS : ENDS_OUT;

        if (ending < ENDS_OUT || room < (c.kind == CALL_PASS ? PEER_PASS_OUT_LEAST : PEER_OUT_LEAST)) {
            endings[ending]++;
            return at;
        }
        c.out_octets = room < OUT_MOST ? room : OUT_MOST;
        b->written += single(&c, settings, left, b);
        b->played++;
        at += octets;
    }
}

static void made(void *given)
{
    struct lent_batch *l = given;

    l->result = peer_run_octets(l->table, l->call->table_octets, l->settings, l->call->settings_octets, l->records, l->batch->octets, l->out,
                                l->batch->out_octets, l->answers, l->batch->answer_octets);
}

static void compare(const struct lent_batch *l, const struct left *left, const uint8_t *settings)
{
    const struct call *c = l->call;
    const struct batch *b = l->batch;

    if (l->result != b->played)
        differs(c, b, "how many events were played");
    if (memcmp(l->answers, left->answers, b->answer_octets) != 0)
        differs(c, b, "the octets of the answers");
    if (memcmp(l->table, left->table, c->table_octets) != 0)
        differs(c, b, "the table after the call");
    if (memcmp(l->out, left->out, b->out_octets) != 0)
        differs(c, b, "the octets of out");
    if (memcmp(l->records, b->records, b->octets) != 0 || memcmp(l->settings, settings, c->settings_octets) != 0)
        differs(c, b, "the records or the settings were written to");
    for (int i = 0; i < LENT_STACK; i++)
        if (!lent_round_about((enum lent)i))
            differs(c, b, "octets outside of what was lent were written");
}

/* One batch; gives the octets of the records that it played, and leaves its table in the call. */
static size_t run_batch(struct call *c, struct batch *b, struct chance *chance)
{
    static struct left left;
    uint8_t settings[SETTINGS_MOST] = { 0 };
    struct lent_batch l = { .call = c, .batch = b };
    size_t taken;

    memcpy(settings, &c->settings, sizeof c->settings);
    draw_octets(chance, left.out, b->out_octets);
    draw_octets(chance, left.answers, b->answer_octets);
    l.table = lend(LENT_TABLE, chance, c->table, c->table_octets);
    l.settings = lend(LENT_SETTINGS, chance, settings, c->settings_octets);
    l.records = lend(LENT_FRAME, chance, b->records, b->octets);
    l.out = lend(LENT_OUT, chance, left.out, b->out_octets);
    l.answers = lend(LENT_ANSWER, chance, left.answers, b->answer_octets);
    taken = expected(c, settings, b, &left);
    call_bounded(c, made, &l);
    compare(&l, &left, settings);
    record_batch(c, b, settings, left.table, left.out, left.answers);
    memcpy(c->table, left.table, c->table_octets);
    batches++;
    events += b->played;
    return taken;
}

/* Sizes of every kind: none, just enough, one too few, much; records whole, cut, and of many octets. */
static struct batch draw_batch(struct chance *chance, const uint8_t *records, size_t octets)
{
    static const size_t outs[] = { 0, 36, 37, 63, 74, 255, 256, 293, 600, 2000, 4000, BATCH_OUT };
    static const size_t many[] = { 0, 1, 2, 3, 5, 8, 10, 10, 21, 64, ANSWERS };
    size_t most = percent(chance, 50) ? 4900 : RECORDS_MOST;
    struct batch b = { .records = records, .octets = octets < most ? octets : most };

    b.octets = percent(chance, 20) ? below(chance, (unsigned)b.octets + 1) : b.octets;
    b.out_octets = ONE_OF(chance, outs);
    b.answer_octets = PEER_ANSWER_OCTETS * ONE_OF(chance, many) + (percent(chance, 30) ? below(chance, PEER_ANSWER_OCTETS) : 0);
    return b;
}

/* The same batch over a spoilt copy of the table, with a table or settings of another length: each event is refused, and nothing else changes. */
static void disturb(const struct call *c, struct batch b, struct chance *chance)
{
    static struct call other;

    other = *c;
    if (percent(chance, 50))
        spoil_table(chance, &other.settings, other.table);
    else if (percent(chance, 50))
        other.settings_octets = below(chance, 2) ? 13 : 23;
    else
        other.table_octets = below(chance, 2) ? PEER_TABLE_OCTETS - 1 - below(chance, 50) : PEER_TABLE_OCTETS + 1 + below(chance, 50);
    run_batch(&other, &b, chance);
}

void run_batches(const struct call *start, const uint8_t *records, size_t octets, struct chance *chance)
{
    static struct call c;
    size_t at = 0, taken = 1;

    c = *start;
    for (unsigned still = 0; still < 20; still = taken > 0 ? 0 : still + 1) {
        struct batch b = draw_batch(chance, records + at, octets - at);

        if (percent(chance, 10))
            disturb(&c, b, chance);
        taken = run_batch(&c, &b, chance);
        at += taken;
    }
}

bool batches_print(void)
{
    static const char *const names[ENDINGS] = { "no record", "no room for an answer", "no room in out" };
    bool all = refused > 0;

    printf("%lu calls of many events, %lu events in all, %lu of them refused by table or settings; ended by", batches, events, refused);
    for (int i = 0; i < ENDINGS; i++) {
        printf("%s %s %lu", i > 0 ? "," : "", names[i], endings[i]);
        all = all && endings[i] > 0;
    }
    printf("\n");
    if (!all)
        printf("host: some way to end a batch, or a refusal 2, was never seen\n");
    return all;
}
