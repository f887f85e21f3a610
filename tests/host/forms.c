/* forms.c - table, settings and answer from one form to the other, field by field and octet by octet. */
#include "forms.h"

#include <string.h>

enum { PHASES = 3, EXCHANGES = 10, QUERIES = 4, LINKS = 24 };

/* A record's octets: address 8, hold 4, left 2, state 1, exchange 1, identifier 2, what is left of the query 2, query 4, four links of 6,
   little-endian. */
static void octets_of_record(const struct pt_record *r, uint8_t *p)
{
    for (int i = 0; i < 8; i++)
        p[i] = (uint8_t)(r->address >> (8 * i));
    pt_put32(p + 8, r->hold);
    pt_put16(p + 12, (uint16_t)r->left);
    p[14] = r->state;
    p[15] = (uint8_t)(r->phase == PT_NONE ? 0 : (r->phase - 1) * PHASES + r->kind);
    pt_put16(p + 16, r->identifier);
    pt_put16(p + 18, (uint16_t)r->query_left);
    pt_put32(p + 20, r->query);
    for (int i = 0; i < PT_LINKS; i++)
        pt_put48(p + LINKS + PEER_ADDRESS_OCTETS * i, r->links[i]);
}

/* Links count up to the first slot without one; what stands behind it does not fit there. */
static void links_of(const uint8_t *p, struct pt_record *r)
{
    r->link_count = 0;
    for (int i = 0; i < PT_LINKS; i++) {
        r->links[i] = pt_get48(p + PEER_ADDRESS_OCTETS * i);
        if (r->links[i] != 0 && r->link_count == i)
            r->link_count++;
    }
}

static void record_of(const uint8_t *p, struct pt_record *r)
{
    unsigned exchange = p[15];

    r->address = pt_get32(p) | (uint64_t)pt_get32(p + 4) << 32;
    r->hold = pt_get32(p + 8);
    r->left = pt_get16(p + 12);
    r->state = p[14];
    r->phase = (uint8_t)(exchange == 0 ? PT_NONE : 1 + (exchange - 1) / PHASES);
    r->kind = (uint8_t)(exchange == 0 ? PT_NO_KIND : 1 + (exchange - 1) % PHASES);
    r->identifier = pt_get16(p + 16);
    r->query_left = pt_get16(p + 18);
    r->query = (uint8_t)pt_get32(p + 20);
    links_of(p + LINKS, r);
}

void octets_of(const struct pt_record *table, uint8_t *octets)
{
    for (int i = 0; i < PT_PLACES; i++)
        octets_of_record(&table[i], octets + PEER_RECORD_OCTETS * i);
}

bool table_of(const uint8_t *octets, struct pt_record *table)
{
    bool held = true;

    for (int i = 0; i < PT_PLACES; i++) {
        const uint8_t *p = octets + PEER_RECORD_OCTETS * i;

        held = held && p[15] < EXCHANGES && pt_get32(p + 20) < QUERIES;
        record_of(p, &table[i]);
    }
    return held;
}

bool settings_length(size_t octets)
{
    return octets == PEER_SETTINGS_OCTETS || octets == PEER_SETTINGS_OCTETS_QUERY || octets == PEER_SETTINGS_OCTETS_EDITION ||
           octets == PEER_SETTINGS_OCTETS_LEAST;
}

struct pt_settings settings_of(const peer_settings *settings, size_t octets)
{
    bool edition = octets >= PEER_SETTINGS_OCTETS_EDITION, query = octets >= PEER_SETTINGS_OCTETS_QUERY;

    return (struct pt_settings){
        .own = pt_get48(settings->own), .role = settings->role, .rsna = settings->rsna,
        .auth_timeout = settings->authentication_timeout, .assoc_timeout = settings->association_timeout,
        .edition = edition ? settings->edition : PEER_EDITION_1, .protection = edition ? settings->protection : 0,
        .query_retry = query ? settings->query_retry : PEER_QUERY_RETRY_USUAL,
        .query_maximum = query ? settings->query_maximum : PEER_QUERY_MAXIMUM_USUAL,
        .network = octets >= PEER_SETTINGS_OCTETS ? pt_get48(settings->network) : 0,
    };
}

void octets_of_answer(const struct pt_answer *a, uint8_t *p)
{
    memset(p, 0, PEER_ANSWER_OCTETS);
    for (int i = 0; i < 8; i++)
        p[i] = (uint8_t)(a->current >> (8 * i));
    pt_put16(p + 8, a->code);
    pt_put16(p + 10, a->written);
    p[12] = a->refusal;
    p[13] = a->verdict;
    p[14] = a->notice;
    p[15] = a->ds;
    p[16] = a->state;
}
