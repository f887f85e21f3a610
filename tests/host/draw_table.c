/* draw_table.c - addresses and tables by chance: well formed, and with one thing spoilt. */
#include "draw.h"

#include <string.h>

enum { HOLD = 8, LEFT = 12, STATE = 14, EXCHANGE = 15, QUERY_LEFT = 18, QUERY = 20 }; /* offsets in a record's octets */

uint64_t pool_address(unsigned number)
{
    return 0x010000000002u + ((uint64_t)number << 32);
}

uint64_t draw_address(struct chance *c, uint64_t own)
{
    static const uint64_t odd[] = { 0, 1, 0xffffffffffffu, 0x1000000000000u, 0x1000000000002u, 0xfffffffffffffffeu, 0xfffffffffffeu };

    if (percent(c, 92))
        return pool_address(below(c, POOL));
    return percent(c, 20) ? own : percent(c, 30) ? draw(c) >> 16 : ONE_OF(c, odd);
}

/* An AP is asked, a station asks; in an ad hoc network each does either, for authentication alone. */
static void draw_exchange(struct chance *c, const struct pt_settings *s, struct pt_record *r, bool *associating)
{
    bool station = s->role == PEER_STATION, alone = s->role == PEER_AD_HOC || r->state == 1 || (station && *associating);

    if (percent(c, 45))
        return;
    r->kind = (uint8_t)(1 + (alone ? 0 : below(c, 3)));
    *associating = *associating || r->kind > PT_AUTHENTICATION;
    if (station || (s->role == PEER_AD_HOC && percent(c, 50))) {
        r->phase = PT_SENT;
        r->left = percent(c, 60) ? 1 + below(c, 200) : 1 + below(c, 65535);
    } else {
        r->phase = r->kind > PT_AUTHENTICATION && percent(c, 50) ? PT_AWAITING : PT_ASKED;
    }
}

/* An identifier may stand in any record, a query or its mark at an AP in State 4, whatever the edition. */
static void draw_query(struct chance *c, const struct pt_settings *s, struct pt_record *r)
{
    static const uint16_t identifiers[] = { 1, 2, 255, 256, 65534, 65535 };

    if (percent(c, 50))
        r->identifier = ONE_OF(c, identifiers);
    if (s->role != PEER_AP || r->state != 4 || percent(c, 40))
        return;
    r->query = (uint8_t)(1 + below(c, 3));
    if (r->query != PT_QUERY_TIMED_OUT)
        r->query_left = percent(c, 30) ? s->query_maximum : 1 + below(c, s->query_maximum);
}

/* Addresses of the pool from a place drawn, so that none is there twice; at an AP some are devices with links, or all are. */
void draw_table(struct chance *c, struct call *call)
{
    static const unsigned crowds[] = { 3, 20, 60, 95, 100, 100 };
    static const unsigned linkings[] = { 0, 0, 30, 100 };
    static const uint32_t holds[] = { 1, 2, 50, 1953, 1954, 65535, 65536, 0x7fffffff, 0xffffffff };
    struct pt_settings s = settings_of(&call->settings, call->settings_octets);
    struct pt_record table[PT_PLACES] = { { 0 } };
    unsigned crowd = ONE_OF(c, crowds), first = below(c, POOL), linking = s.role == PEER_AP ? ONE_OF(c, linkings) : 0;
    bool joined = false, associating = false, ap = s.role == PEER_AP;

    for (unsigned i = 0; i < PT_PLACES; i++) {
        struct pt_record *r = &table[i];

        if (!percent(c, crowd))
            continue;
        r->address = pool_address((first + i * 7) % POOL);
        r->state = (uint8_t)(1 + below(c, s.role == PEER_AD_HOC || (!ap && joined) ? 2 : 4));
        joined = joined || r->state >= 3;
        draw_exchange(c, &s, r, &associating);
        draw_query(c, &s, r);
        if (!ap && percent(c, 40))
            r->hold = ONE_OF(c, holds);
        if (percent(c, linking))
            draw_links(c, (first + i * 7) % POOL, r);
    }
    octets_of(table, call->table);
}

struct pt_record standing(const struct call *call, uint64_t address)
{
    struct pt_record table[PT_PLACES], none = { 0 };

    table_of(call->table, table);
    for (int i = 0; i < PT_PLACES; i++)
        if (pt_has_address(&table[i], address))
            return table[i];
    return none;
}

/* The query's number or the time left of it, near what may stand there. */
static void spoil_query(struct chance *c, const peer_settings *s, uint8_t *r)
{
    static const uint32_t numbers[] = { 0, 1, 2, 3, 4, 255, 256, 257, 0x10001, 0x1000002, 0xffffffff };
    const uint16_t lefts[] = { 0, 1, s->query_maximum, (uint16_t)(s->query_maximum + 1), 1000, 1001, 65535 };

    if (percent(c, 50))
        pt_put32(r + QUERY, ONE_OF(c, numbers));
    else
        pt_put16(r + QUERY_LEFT, ONE_OF(c, lefts));
}

/* One field of one place, which may be a free one, gets a value that may not stand there; now and then it may after all. */
void spoil_table(struct chance *c, const peer_settings *s, uint8_t *octets)
{
    static const uint64_t odd[] = { 0, 1, 0xffffffffffffu, 0x1000000000000u, 0x2000000000002u, 0xffffffffffffffffu };
    static const uint8_t states[] = { 0, 5, 6, 128, 255 };
    uint8_t *r = octets + PEER_RECORD_OCTETS * below(c, PT_PLACES), *other = octets + PEER_RECORD_OCTETS * below(c, PT_PLACES);
    uint64_t address = percent(c, 30) ? pt_get48(s->own) : ONE_OF(c, odd);

    switch (below(c, 13)) {
    case 0:
        for (int i = 0; i < 8; i++)
            r[i] = (uint8_t)(address >> (8 * i));
        break;
    case 1:
        memcpy(r, other, 8); /* an address in two places */
        break;
    case 2:
        r[STATE] = percent(c, 50) ? ONE_OF(c, states) : (uint8_t)(3 + below(c, 2));
        break;
    case 3:
        r[EXCHANGE] = (uint8_t)(percent(c, 50) ? below(c, 12) : below(c, 256));
        break;
    case 4:
        pt_put16(r + LEFT, (uint16_t)(percent(c, 50) ? 0 : 1 + below(c, 65535)));
        break;
    case 5:
        r[HOLD + below(c, 4)] ^= (uint8_t)(1u << below(c, 8));
        break;
    case 6:
        memcpy(r, other, PEER_RECORD_OCTETS); /* a whole record twice, or freed */
        break;
    case 7:
    case 8:
        spoil_query(c, s, r);
        break;
    case 9:
    case 10:
    case 11:
        spoil_links(c, s, r, other);
        break;
    default:
        octets[below(c, PEER_TABLE_OCTETS)] ^= (uint8_t)(1u << below(c, 8));
    }
}
