/* call.c - what must come of a call, by the independent functions; the call itself; and the comparison of everything lent. */
#include "call.h"
#include "lent.h"
#include "on_stack.h"
#include "record.h"
#include "tally.h"

#include <stdio.h>
#include <stdlib.h>
#include <string.h>
#include <unistd.h>

enum {
    PATIENCE = 60, /* seconds after which a call counts as one that does not end */
    CALLER = 256   /* octets of stack for the caller's own frame */
};

/* What a call leaves: all octets of table, out and answer. The answer too in the independent program's form: it is what is right. */
struct outcome {
    struct pt_answer answer;
    uint8_t table[TABLE_MOST], out[OUT_MOST], octets[ANSWER_MOST];
};

const struct call *volatile call_under_way;

/* The links that octets name. Of another length than their count says, or too many: as many as no device has. */
static struct pt_answer named(const struct call *c, const struct pt_settings *s, struct pt_record *table)
{
    uint64_t links[PT_LINKS] = { 0 };
    size_t count = c->frame_octets < PEER_NAMED_OCTETS_LEAST ? PT_LINKS + 1u : c->frame[PEER_ADDRESS_OCTETS];

    if (count > PT_LINKS || c->frame_octets != PEER_NAMED_OCTETS_LEAST + PEER_ADDRESS_OCTETS * count)
        return pt_link(s, table, 0, links, PT_LINKS + 1u, c->out_octets);
    for (size_t i = 0; i < count; i++)
        links[i] = pt_get48(c->frame + PEER_NAMED_OCTETS_LEAST + PEER_ADDRESS_OCTETS * i);
    return pt_link(s, table, pt_get48(c->frame), links, count, c->out_octets);
}

static struct pt_answer independent(const struct call *c, struct pt_record *table, uint8_t *out)
{
    struct pt_settings s = settings_of(&c->settings, c->settings_octets);

    if (c->kind == CALL_RECEIVE)
        return pt_receive(&s, table, c->frame, c->frame_octets, out, c->out_octets);
    if (c->kind == CALL_ASK)
        return pt_ask(&s, table, c->primitive, c->address, c->number, out, c->out_octets);
    if (c->kind == CALL_LINKS)
        return named(c, &s, table);
    return pt_clock(&s, table, c->number, out, c->out_octets);
}

/* A table or settings that the independent forms can't hold are not well formed: refusal 2, after refusal 1. */
struct pt_answer call_expected(const struct call *c, uint8_t *octets, uint8_t *out)
{
    struct pt_record table[PT_PLACES];
    struct pt_answer a;

    if (c->answer_octets < PEER_ANSWER_OCTETS || c->out_octets < (c->kind == CALL_PASS ? PEER_PASS_OUT_LEAST : PEER_OUT_LEAST))
        return pt_refuse(PT_BUFFER);
    if (!settings_length(c->settings_octets) || c->table_octets != PEER_TABLE_OCTETS || !table_of(c->table, table))
        return pt_refuse(PT_ILL_FORMED);
    a = independent(c, table, out);
    if (a.refusal == PT_DONE)
        octets_of(table, octets);
    return a;
}

static void expect(const struct call *c, struct outcome *o)
{
    memcpy(o->table, c->table, c->table_octets);
    o->answer = call_expected(c, o->table, o->out);
    if (c->answer_octets >= PEER_ANSWER_OCTETS)
        octets_of_answer(&o->answer, o->octets);
}

void call_library(void *given)
{
    struct lent_call *l = given;
    const struct call *c = l->call;

    if (c->kind == CALL_RECEIVE)
        l->result = peer_receive_octets(l->table, c->table_octets, l->settings, c->settings_octets, l->frame, c->frame_octets,
                                        l->out, c->out_octets, l->answer, c->answer_octets);
    else if (c->kind == CALL_ASK)
        l->result = peer_ask_octets(l->table, c->table_octets, l->settings, c->settings_octets, c->primitive, c->address, c->number,
                                    l->out, c->out_octets, l->answer, c->answer_octets);
    else if (c->kind == CALL_LINKS)
        l->result = peer_links_octets(l->table, c->table_octets, l->settings, c->settings_octets, l->frame, c->frame_octets,
                                      l->out, c->out_octets, l->answer, c->answer_octets);
    else
        l->result = peer_pass_octets(l->table, c->table_octets, l->settings, c->settings_octets, c->number,
                                     l->out, c->out_octets, l->answer, c->answer_octets);
}

void call_bounded(const struct call *call, void (*made)(void *), void *given)
{
    static unsigned long calls;

    call_under_way = call;
    if (calls++ % 4096 == 0)
        alarm(PATIENCE);
    call_on(lent_stack(PEER_STACK_OCTETS + CALLER), made, given);
    call_under_way = NULL;
}

static void print_change(const char *what, const uint8_t *is, const uint8_t *wanted, size_t count)
{
    for (size_t i = 0; i < count; i++)
        if (is[i] != wanted[i])
            printf("  %s octet %zu is %02x, wanted %02x\n", what, i, is[i], wanted[i]);
}

static void differs(const char *what, const struct lent_call *l, const struct outcome *o)
{
    printf("host: DIFFERENCE: %s\n", what);
    call_print(l->call);
    printf("  result %llu, wanted %u\n", (unsigned long long)l->result, o->answer.refusal);
    print_change("answer", l->answer, o->octets, l->call->answer_octets);
    print_change("table", l->table, o->table, l->call->table_octets);
    print_change("out", l->out, o->out, l->call->out_octets);
    fflush(stdout);
    exit(1);
}

static void compare(const struct lent_call *l, const struct outcome *o, const uint8_t *settings)
{
    const struct call *c = l->call;

    if (l->result != o->answer.refusal)
        differs("the result", l, o);
    if (memcmp(l->answer, o->octets, c->answer_octets) != 0)
        differs("the octets of the answer", l, o);
    if (memcmp(l->table, o->table, c->table_octets) != 0)
        differs("the table after the call", l, o);
    if (memcmp(l->out, o->out, c->out_octets) != 0)
        differs("the octets of out", l, o);
    if (memcmp(l->frame, c->frame, c->frame_octets) != 0 || memcmp(l->settings, settings, c->settings_octets) != 0)
        differs("the frame, the links named or the settings were written to", l, o);
    for (int i = 0; i < LENT_STACK; i++)
        if (!lent_round_about((enum lent)i))
            differs("octets outside of what was lent were written", l, o);
}

struct pt_answer checked(struct call *c, struct chance *chance)
{
    static struct outcome o;
    uint8_t settings[SETTINGS_MOST] = { 0 };
    struct lent_call l = { .call = c };

    memcpy(settings, &c->settings, sizeof c->settings);
    draw_octets(chance, o.out, c->out_octets);
    draw_octets(chance, o.octets, c->answer_octets);
    l.table = lend(LENT_TABLE, chance, c->table, c->table_octets);
    l.settings = lend(LENT_SETTINGS, chance, settings, c->settings_octets);
    l.frame = lend(LENT_FRAME, chance, c->frame, c->frame_octets);
    l.out = lend(LENT_OUT, chance, o.out, c->out_octets);
    l.answer = lend(LENT_ANSWER, chance, o.octets, c->answer_octets);
    expect(c, &o);
    call_bounded(c, call_library, &l);
    compare(&l, &o, settings);
    tally_add(c, &o.answer, o.out);
    record(c, settings, &o.answer, o.table, o.out, o.octets);
    memcpy(c->table, o.table, c->table_octets);
    return o.answer;
}
