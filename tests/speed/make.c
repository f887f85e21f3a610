/* make.c - frames and events put at the end of a stream, and the whole joins that streams start from. */
#include "make.h"

#include <string.h>

static uint8_t frames[FRAME_OCTETS];
static size_t frames_used;

struct maker maker_of(struct stream *stream, uint64_t seed, uint8_t role)
{
    memset(stream, 0, sizeof *stream);
    memset(frames, 0, frames_used);
    frames_used = 0;
    stream->settings = (peer_settings){ .role = role, .authentication_timeout = 60000, .association_timeout = 60000,
                                        .edition = PEER_EDITION_1, .query_retry = PEER_QUERY_RETRY_USUAL,
                                        .query_maximum = PEER_QUERY_MAXIMUM_USUAL };
    peer_address_write(OWN, stream->settings.own);
    return (struct maker){ .stream = stream, .chance = chance_of(seed) };
}

void setup_done(struct maker *m)
{
    m->stream->setup = m->stream->count;
    m->stream->count = 0;
}

uint64_t peer_address(unsigned number)
{
    return 0x010000000002u + ((uint64_t)number << 32);
}

uint64_t neighbour_address(unsigned number)
{
    return 0x000000b00006u + ((uint64_t)number << 40);
}

uint64_t stranger_address(struct maker *m)
{
    return 0x00000000fe02u + ((uint64_t)below(&m->chance, 1u << 24) << 16);
}

static struct event *next_event(struct maker *m)
{
    struct stream *s = m->stream;

    m->full = s->count + 1 >= STREAM_EVENTS;
    return &s->events[s->setup + s->count++];
}

uint8_t *hear(struct maker *m, unsigned type, unsigned subtype, uint64_t to, uint64_t from, uint32_t length)
{
    struct event *e = next_event(m);
    uint8_t *p = frames + frames_used;

    frames_used += (length + 127u) & ~63u; /* each frame starts a cache line, as a receive buffer does */
    p[0] = (uint8_t)(type << 2 | subtype << 4);
    pt_put48(p + 4, to);
    pt_put48(p + 10, from);
    pt_put48(p + 16, to);
    *e = (struct event){ .kind = EVENT_FRAME, .frame = p, .length = length };
    return p;
}

void hear_authentication(struct maker *m, uint64_t from, uint16_t transaction, uint16_t algorithm)
{
    uint8_t *p = hear(m, MANAGEMENT, PT_AUTH, OWN, from, 30);

    pt_put16(p + 24, algorithm);
    pt_put16(p + 26, transaction);
}

void hear_request(struct maker *m, uint64_t from)
{
    pt_put16(hear(m, MANAGEMENT, PT_ASSOC_REQUEST, OWN, from, 96) + 24, 1);
}

/* A response with three elements; a comeback of 0 or more is a fourth. */
void hear_response(struct maker *m, uint64_t from, bool again, uint16_t status, int64_t comeback)
{
    static const uint8_t elements[] = { 1, 4, 2, 4, 11, 22, 50, 4, 12, 18, 24, 36, 45, 2, 0, 0 };
    uint32_t length = 30 + (uint32_t)sizeof elements + (comeback < 0 ? 0 : 7);
    uint8_t *p = hear(m, MANAGEMENT, again ? PT_REASSOC_RESPONSE : PT_ASSOC_RESPONSE, OWN, from, length);

    pt_put16(p + 26, status);
    pt_put16(p + 28, 0xC001);
    memcpy(p + 30, elements, sizeof elements);
    if (comeback < 0)
        return;
    p += 30 + sizeof elements;
    p[0] = 56;
    p[1] = 5;
    p[2] = 3;
    for (int i = 0; i < 4; i++)
        p[3 + i] = (uint8_t)(comeback >> (8 * i));
}

void hear_query(struct maker *m, uint64_t from, uint8_t action, uint16_t identifier)
{
    uint8_t *p = hear(m, MANAGEMENT, PT_ACTION, OWN, from, PEER_QUERY_OCTETS);

    p[24] = PEER_CATEGORY_SA_QUERY;
    p[25] = action;
    pt_put16(p + 26, identifier);
}

void hear_farewell(struct maker *m, bool deauthentication, uint64_t to, uint64_t from)
{
    pt_put16(hear(m, MANAGEMENT, deauthentication ? PT_DEAUTH : PT_DISASSOC, to, from, 26) + 24, PEER_REASON_LEAVING);
}

void ask(struct maker *m, uint8_t primitive, uint64_t address, uint16_t code)
{
    *next_event(m) = (struct event){ .kind = EVENT_PRIMITIVE, .primitive = primitive, .address = address, .number = code };
}

void name_links(struct maker *m, uint64_t device, const uint64_t *links, uint32_t count)
{
    struct event *e = next_event(m);

    *e = (struct event){ .kind = EVENT_LINKS, .address = device, .length = count };
    memcpy(e->links, links, count * sizeof *links);
}

void let_pass(struct maker *m, uint16_t step)
{
    *next_event(m) = (struct event){ .kind = EVENT_CLOCK, .number = step };
}

bool drawn(unsigned *left, unsigned weight)
{
    if (*left < weight)
        return true;
    *left -= weight;
    return false;
}

void join_at_ap(struct maker *m, uint64_t peer)
{
    hear_authentication(m, peer, 1, 0);
    ask(m, PEER_AUTHENTICATE_RESPONSE, peer, PEER_STATUS_SUCCESS);
    hear_request(m, peer);
    ask(m, PEER_ASSOCIATE_RESPONSE, peer, PEER_STATUS_SUCCESS);
    ask(m, PEER_TRANSMIT_REPORT, peer, PEER_ACKNOWLEDGED);
}

void know_at_station(struct maker *m, uint64_t peer)
{
    ask(m, PEER_AUTHENTICATE_REQUEST, peer, 0);
    hear_authentication(m, peer, 2, 0);
}

void join_at_station(struct maker *m, uint64_t peer)
{
    ask(m, PEER_ASSOCIATE_REQUEST, peer, 0);
    hear_response(m, peer, false, PEER_STATUS_SUCCESS, -1);
}
