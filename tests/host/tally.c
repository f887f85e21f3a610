/* tally.c - counts by call, role, table, refusal, verdict, notice, word to the distribution system, state, timeouts, rejections, frames written. */
#include "tally.h"

#include <stdio.h>

enum { MOST = 33 };

enum field { CALLS, LINKED, ROLES, TABLES, REFUSALS, VERDICTS, NOTICES, DS_WORDS, STATES, TIMEOUTS, KINDS, REJECTIONS, FRAMES, FIELDS };

/* What each field is called and how many values it has, all of which must be seen; refusals also for each call, below. */
static const struct {
    const char *name;
    unsigned values;
} fields[FIELDS] = {
    [CALLS] = { "call (receive, ask, pass, links)", CALL_KINDS },
    [LINKED] = { "links named, where it was done (none to four)", 5 },
    [ROLES] = { "role, of calls that were done (AP, station, ad hoc)", 3 },
    [TABLES] = { "table (corpus, walk, drawn, spoilt, random, of other length)", TABLE_KINDS },
    [REFUSALS] = { "refusal", 10 },
    [VERDICTS] = { "verdict", 3 },
    [NOTICES] = { "notice", 11 },
    [DS_WORDS] = { "distribution system", 3 },
    [STATES] = { "state", 5 },
    [TIMEOUTS] = { "timeouts of a clock step", 33 },
    [KINDS] = { "kind of a timeout, from 1 (three exchanges, query due again, query timed out)", 5 },
    [REJECTIONS] = { "rejection (settings of 12, edition 1, edition 2 to State 2 and 3, with protection to State 2, 3 and 4)", 7 },
    [FRAMES] = { "frame written (four of association, disassociation, authentication, deauthentication, query; rejection by a query)", 9 },
};

/* The refusals that each call can give, as bits. */
static const unsigned possible[CALL_KINDS] = { [CALL_RECEIVE] = 0x01F, [CALL_ASK] = 0x3EF, [CALL_PASS] = 0x00F,
                                                   [CALL_LINKS] = 0x0EF };

static unsigned long counts[FIELDS][MOST], refusals[CALL_KINDS][10], total;

unsigned long tally_calls(void)
{
    return total;
}

/* A (re)association that an AP rejects, by the rule that it follows and where that leads. */
static unsigned rejection(const struct call *call, uint8_t state)
{
    const peer_settings *s = &call->settings;

    if (call->settings_octets == PEER_SETTINGS_OCTETS_LEAST)
        return 0;
    if (s->edition == PEER_EDITION_1)
        return 1;
    return (s->protection ? 4u : 2u) + state - PEER_STATE_2;
}

static void add_timeouts(const uint8_t *out, unsigned count)
{
    counts[TIMEOUTS][count]++;
    for (unsigned i = 0; i < count; i++)
        counts[KINDS][out[PEER_TIMEOUT_OCTETS * i + 1] - PEER_KIND_AUTHENTICATION]++;
}

/* By its subtype, 0 to 3 and 10 to 13, or by the length that only a rejection by a query has. */
static unsigned frame_written(const uint8_t *out, unsigned written)
{
    unsigned subtype = out[0] >> 4;

    return written == PEER_OUT_LEAST ? 8 : subtype < 4 ? subtype : subtype - 6;
}

void tally_add(const struct call *call, const struct pt_answer *answer, const uint8_t *out)
{
    total++;
    counts[CALLS][call->kind]++;
    counts[TABLES][call->table_kind]++;
    counts[REFUSALS][answer->refusal]++;
    counts[VERDICTS][answer->verdict]++;
    counts[NOTICES][answer->notice]++;
    counts[DS_WORDS][answer->ds]++;
    counts[STATES][answer->state]++;
    refusals[call->kind][answer->refusal]++;
    if (answer->refusal == PT_DONE)
        counts[ROLES][call->settings.role - PEER_AP]++;
    if (call->kind == CALL_LINKS && answer->refusal == PT_DONE)
        counts[LINKED][call->frame[PEER_ADDRESS_OCTETS]]++;
    if (call->kind == CALL_PASS && answer->refusal == PT_DONE)
        add_timeouts(out, answer->written / PEER_TIMEOUT_OCTETS);
    else if (answer->written > 0)
        counts[FRAMES][frame_written(out, answer->written)]++;
    if (call->kind == CALL_ASK && answer->refusal == PT_DONE && call->number != PEER_STATUS_SUCCESS &&
        (call->primitive == PEER_ASSOCIATE_RESPONSE || call->primitive == PEER_REASSOCIATE_RESPONSE))
        counts[REJECTIONS][rejection(call, answer->state)]++;
}

static bool print_field(enum field field)
{
    bool all = true;

    printf("  %s:", fields[field].name);
    for (unsigned i = 0; i < fields[field].values; i++) {
        if (counts[field][i] > 0 || field != TIMEOUTS)
            printf(" %u %lu", i, counts[field][i]);
        all = all && (counts[field][i] > 0 || (field == TIMEOUTS && i > 2 && i < 32));
    }
    printf("\n");
    if (!all)
        printf("host: some %s was never seen\n", fields[field].name);
    return all;
}

bool tally_print(void)
{
    bool all = true;

    printf("%lu calls, each value with how often it was seen\n", total);
    for (int i = 0; i < FIELDS; i++)
        all = print_field((enum field)i) && all;
    for (int kind = 0; kind < CALL_KINDS; kind++)
        for (unsigned i = 0; i < 10; i++)
            if (possible[kind] >> i & 1 && refusals[kind][i] == 0) {
                printf("host: refusal %u was never seen from call %d (receive, ask, pass, links)\n", i, kind);
                all = false;
            }
    return all;
}
