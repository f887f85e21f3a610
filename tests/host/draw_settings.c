/* draw_settings.c - settings by chance, in range and with one thing spoilt, and the lengths of what a call is lent. */
#include "draw.h"

#define OWN 0x0a0000000002u /* 02:00:00:00:00:0a */

/* In an ad hoc network an address that is valid: our own and a peer's are too. In the other roles it is not looked at. */
static uint64_t draw_network(struct chance *c, uint8_t role)
{
    static const uint64_t valid[] = { 0x4e0000000002u, OWN, 0xfffffffffffeu, 2 }, odd[] = { 0, 1, 0xffffffffffffu, 0x0a0000000003u };

    if (role != PEER_AD_HOC && percent(c, 50))
        return ONE_OF(c, odd);
    return percent(c, 80) ? ONE_OF(c, valid) : pool_address(below(c, POOL));
}

peer_settings draw_settings(struct chance *c, uint8_t role)
{
    static const uint16_t timeouts[] = { 1, 2, 3, 10, 100, 1000, 1954, 65534, 65535 };
    static const uint16_t times[] = { 1, 2, 3, 7, 40, 100, 201, 1000, 65535 };
    peer_settings s = { .authentication_timeout = ONE_OF(c, timeouts), .association_timeout = ONE_OF(c, timeouts), .role = role,
                        .rsna = (uint8_t)below(c, 2), .edition = (uint8_t)(1 + below(c, 2)), .protection = (uint8_t)below(c, 2),
                        .query_retry = ONE_OF(c, times), .query_maximum = ONE_OF(c, times) };

    pt_put48(s.own, OWN);
    pt_put48(s.network, draw_network(c, role));
    return s;
}

static void spoil_time(struct chance *c, peer_settings *s)
{
    uint16_t *const times[] = { &s->authentication_timeout, &s->association_timeout, &s->query_retry, &s->query_maximum };

    *ONE_OF(c, times) = 0;
}

void spoil_settings(struct chance *c, peer_settings *s)
{
    static const uint64_t addresses[] = { 0, 1, 0xffffffffffffu, 0x0a0000000003u };
    static const uint8_t odd[] = { 0, 3, 4, 128, 255 };

    switch (below(c, s->role == PEER_AD_HOC ? 12 : 8)) {
    case 0:
        pt_put48(s->own, ONE_OF(c, addresses));
        break;
    case 1:
        s->role = ONE_OF(c, odd);
        break;
    case 2:
        s->edition = ONE_OF(c, odd);
        break;
    case 3:
        s->protection = (uint8_t)(2 + below(c, 254));
        break;
    case 4:
        s->rsna = (uint8_t)(2 + below(c, 254));
        break;
    case 5:
    case 6:
    case 7:
        spoil_time(c, s);
        break;
    default:
        pt_put48(s->network, ONE_OF(c, addresses));
    }
}

uint64_t own_of(const struct call *call)
{
    return pt_get48(call->settings.own);
}

void lend_usual(struct call *call, struct chance *c)
{
    static const size_t older[] = { PEER_SETTINGS_OCTETS_QUERY, PEER_SETTINGS_OCTETS_EDITION, PEER_SETTINGS_OCTETS_LEAST };

    call->table_octets = PEER_TABLE_OCTETS;
    call->settings_octets = call->settings.role == PEER_AD_HOC || percent(c, 40) ? PEER_SETTINGS_OCTETS : ONE_OF(c, older);
    call->answer_octets = PEER_ANSWER_OCTETS;
}

void draw_lengths(struct chance *c, struct call *call)
{
    static const size_t settings[] = { 0, 1, 8, 11, 12, 13, 14, 15, 16, 17, 18, 19, 20, 21, 22, 23, 24, 25, 30, 64 };
    static const size_t answers[] = { 0, 1, 12, 16, 23, 24, 25, 32, 64 };

    if (percent(c, 60))
        call->settings_octets = ONE_OF(c, settings);
    if (percent(c, 60))
        call->answer_octets = ONE_OF(c, answers);
}
