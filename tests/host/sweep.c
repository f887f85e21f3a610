/* sweep.c - sweeps: every value of one thing, the rest drawn, all three roles and all four calls. */
#include "draw.h"
#include "runs.h"

#include <string.h>

static struct call call;

/* A fresh call of this kind over a table drawn for it, with an event that would do something. */
static void fresh(struct chance *c, enum call_kind kind, uint8_t role, const char *source)
{
    memset(&call, 0, sizeof call);
    call.settings = draw_settings(c, role);
    lend_usual(&call, c);
    call.table_kind = TABLE_DRAWN;
    call.source = source;
    draw_table(c, &call);
    do
        draw_event(c, &call);
    while (call.kind != kind);
    call.out_octets = PEER_PASS_OUT_LEAST;
}

static void made(struct chance *c, unsigned long index)
{
    call.index = index;
    checked(&call, c);
}

/* A table of one record, with a time left where the exchange was sent: the number alone decides. */
static uint8_t *alone(struct chance *c, unsigned exchange)
{
    uint8_t *record = call.table + PEER_RECORD_OCTETS * below(c, PT_PLACES);

    memset(call.table, 0, PEER_TABLE_OCTETS);
    pt_put48(record, pool_address(below(c, POOL)));
    pt_put16(record + 12, (uint16_t)(exchange >= PEER_SENT_AUTHENTICATION ? 1 + below(c, 200) : 0));
    return record;
}

/* Offset 14 is the state, 15 the exchange. In a free place too, which is then not free. */
static void sweep_octet(struct chance *c, enum call_kind kind, uint8_t role)
{
    for (unsigned offset = 14; offset <= 15; offset++)
        for (unsigned value = 0; value < 256; value++)
            for (unsigned state = 0; state <= 4; state += offset == 15 ? 1 : 5) {
                fresh(c, kind, role, offset == 14 ? "the sweep of states" : "the sweep of exchange numbers");
                uint8_t *record = offset == 15 && percent(c, 50) ? alone(c, value)
                                                                 : call.table + PEER_RECORD_OCTETS * below(c, PT_PLACES);
                if (state > 0)
                    record[14] = (uint8_t)state;
                record[offset] = (uint8_t)value;
                call.table_kind = TABLE_SPOILT;
                made(c, value);
            }
}

/* The query's number, each of its octets, mostly in State 4; then each number and state with times left at their limits. */
static void sweep_query(struct chance *c, enum call_kind kind, uint8_t role)
{
    for (unsigned i = 0; i < 4 * 64 + 4 * 4 * 6; i++) {
        fresh(c, kind, role, "the sweep of queries");
        uint8_t *record = call.table + PEER_RECORD_OCTETS * below(c, PT_PLACES);
        uint32_t most = settings_of(&call.settings, call.settings_octets).query_maximum;
        const uint32_t lefts[] = { 0, 1, most - 1, most, most + 1, 65535 };

        call.table_kind = TABLE_SPOILT;
        if (i < 4 * 64) {
            record[14] = percent(c, 70) ? PEER_STATE_4 : record[14];
            record[20 + i % 4] = (uint8_t)(i / 4);
        } else {
            record[14] = (uint8_t)(1 + i % 4);
            pt_put16(record + 18, (uint16_t)lefts[i / 16 % 6]);
            pt_put32(record + 20, i / 4 % 4);
        }
        made(c, i);
    }
}

static void sweep_lengths(struct chance *c, enum call_kind kind, uint8_t role)
{
    static const size_t tables[] = { 0, 48, 768, 1535, 1536, 1537, 1600 }, outs[] = { 0, 34, 36, 37, 255, 256 };

    for (size_t out = 0; out <= 260; out++)
        if (out <= 40 || out >= 250) {
            fresh(c, kind, role, "the sweep of buffer lengths");
            call.out_octets = out;
            made(c, out);
        }
    for (size_t i = 0; i < 42; i++) {
        fresh(c, kind, role, "the sweep of table lengths");
        call.table_octets = tables[i / 6];
        call.table_kind = call.table_octets == PEER_TABLE_OCTETS ? TABLE_DRAWN : TABLE_OF_OTHER_LENGTH;
        call.out_octets = outs[i % 6];
        made(c, call.table_octets);
    }
}

/* Settings and answers of every length near theirs; with a table or a buffer at fault too, so that the order of refusals is seen. */
static void sweep_slices(struct chance *c, enum call_kind kind, uint8_t role)
{
    for (unsigned i = 0; i < 8 * SETTINGS_MOST; i++) {
        fresh(c, kind, role, "the sweep of lengths of settings and answer");
        if (i % 2)
            call.settings_octets = i / 8;
        else
            call.answer_octets = i / 8;
        if (i / 2 % 2)
            call.out_octets = below(c, PEER_OUT_LEAST);
        if (i / 4 % 2) {
            call.table_kind = TABLE_SPOILT;
            spoil_table(c, &call.settings, call.table);
        }
        made(c, i / 8);
    }
}

static void sweep_frames(struct chance *c, uint8_t role)
{
    for (size_t length = 0; length <= FRAME_MOST; length++)
        for (unsigned again = 0; again < (length < 64 ? 16 : 1); again++) {
            fresh(c, CALL_RECEIVE, role, "the sweep of frame lengths");
            draw_octets(c, call.frame + 96, length > 96 ? length - 96 : 0);
            call.frame_octets = length;
            made(c, length);
        }
}

static void sweep_numbers(struct chance *c, uint8_t role)
{
    static const uint16_t codes[] = { 0, 1, 2, 17, 255, 256, 32768, 65535 };

    for (unsigned i = 0; i < 256 * 8; i++) {
        fresh(c, CALL_ASK, role, "the sweep of primitives and codes");
        call.primitive = (uint8_t)(i / 8);
        call.number = codes[i % 8];
        made(c, i);
    }
    for (unsigned i = 0; i < 600; i++) {
        fresh(c, CALL_PASS, role, "the sweep of clock steps");
        call.number = (uint16_t)(i < 300 ? i : 65535 - (i - 300) * 218);
        made(c, call.number);
    }
}

static void sweep_settings(struct chance *c, enum call_kind kind, uint8_t role)
{
    static const uint16_t timeouts[] = { 0, 1, 65535 };
    uint8_t *const octets[] = { &call.settings.role, &call.settings.rsna, &call.settings.edition, &call.settings.protection };

    for (unsigned i = 0; i < 4 * 128; i++) {
        unsigned value = i % 128;

        fresh(c, kind, role, "the sweep of settings");
        *octets[i / 128] = (uint8_t)(value < 8 ? value : value * 2);
        made(c, i);
    }
    for (unsigned i = 0; i < 81 + 60; i++) {
        fresh(c, kind, role, "the sweep of times and own addresses");
        call.settings.authentication_timeout = timeouts[i % 3];
        call.settings.association_timeout = timeouts[i / 3 % 3];
        call.settings.query_retry = timeouts[i / 9 % 3];
        call.settings.query_maximum = timeouts[i / 27 % 3];
        if (i >= 81)
            spoil_settings(c, &call.settings);
        made(c, i);
    }
}

/* All 32 exchanges that were sent run out in one step: the longest output there is. */
static void sweep_timeouts(struct chance *c, uint8_t role)
{
    for (unsigned most = 0; most <= PT_PLACES; most++) {
        struct pt_record table[PT_PLACES] = { { 0 } };

        fresh(c, CALL_PASS, role, "the sweep of timeouts at once");
        for (unsigned i = 0; i < most; i++)
            table[i] = (struct pt_record){ .address = pool_address(i), .left = 1 + i, .hold = i % 3, .state = (uint8_t)(1 + i % 2),
                                           .phase = PT_SENT, .kind = PT_AUTHENTICATION };
        octets_of(table, call.table);
        call.number = PT_PLACES;
        made(c, most);
    }
}

/* The same of an AP's queries: some time out, some are due again, some go on. */
static void sweep_queries_at_once(struct chance *c)
{
    for (unsigned most = 0; most <= PT_PLACES; most++) {
        struct pt_record table[PT_PLACES] = { { 0 } };

        fresh(c, CALL_PASS, PEER_AP, "the sweep of queries at once");
        call.settings.query_retry = 40;
        call.settings.query_maximum = 100;
        call.settings_octets = PEER_SETTINGS_OCTETS;
        for (unsigned i = 0; i < most; i++)
            table[i] = (struct pt_record){ .address = pool_address(i), .state = 4, .identifier = (uint16_t)i, .query_left = 1 + 3 * i,
                                           .query = i % 2 ? PT_QUERY_RUNS : PT_QUERY_DUE };
        octets_of(table, call.table);
        call.number = (uint16_t)(most % 2 ? PT_PLACES : 100);
        made(c, most);
    }
}

void run_sweeps(struct chance *c)
{
    for (uint8_t role = PEER_AP; role <= PEER_AD_HOC; role++) {
        for (int kind = 0; kind < CALL_KINDS; kind++) {
            sweep_octet(c, (enum call_kind)kind, role);
            sweep_query(c, (enum call_kind)kind, role);
            sweep_lengths(c, (enum call_kind)kind, role);
            sweep_slices(c, (enum call_kind)kind, role);
            sweep_settings(c, (enum call_kind)kind, role);
        }
        sweep_frames(c, role);
        sweep_numbers(c, role);
    }
    sweep_timeouts(c, PEER_STATION);
    sweep_timeouts(c, PEER_AD_HOC);
    sweep_queries_at_once(c);
}
