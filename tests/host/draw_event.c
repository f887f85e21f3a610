/* draw_event.c - frames, primitives, links named and clock steps by chance, most of them such that they mean something. */
#include "draw.h"

#include <string.h>

enum { MANAGEMENT = 0, RESPONSE_ELEMENTS = 30 };

static uint64_t receiver(struct chance *c, uint64_t own)
{
    static const uint64_t groups[] = { 0xffffffffffffu, 0x0000005e0001u, 0x0a0000000003u };

    if (percent(c, 84))
        return own;
    return percent(c, 70) ? ONE_OF(c, groups) : draw_address(c, own);
}

/* Elements by chance: some comebacks, good, of another type or length, or cut at the end. Gives the length of all. */
static size_t draw_elements(struct chance *c, uint8_t *p)
{
    static const uint32_t comebacks[] = { 0, 0, 1, 5, 1954, 65536, 0xffffffff };
    size_t length = 0;

    for (unsigned n = below(c, 4); n > 0; n--) {
        uint8_t *e = p + length;
        bool comeback = percent(c, 60);
        uint32_t value = ONE_OF(c, comebacks);

        e[0] = (uint8_t)(comeback ? 56 : below(c, 256));
        e[1] = (uint8_t)(comeback && percent(c, 80) ? 5 : below(c, 12));
        draw_octets(c, e + 2, e[1]);
        e[2] = (uint8_t)(percent(c, 80) ? 3 : below(c, 5));
        for (int i = 0; i < 4 && e[1] >= 5; i++)
            e[3 + i] = (uint8_t)(value >> (8 * i));
        length += 2u + e[1];
    }
    return percent(c, 80) || length == 0 ? length : length - 1 - below(c, 2);
}

/* An AP is asked by transaction 1, a station answered by 2; in an ad hoc network either may come. */
uint16_t draw_transaction(struct chance *c, uint8_t role)
{
    return (uint16_t)(role == PEER_AD_HOC ? 1 + below(c, 2) : role);
}

/* The fixed fields of the management frames that have some. */
static void draw_body(struct chance *c, uint8_t *frame, unsigned subtype, uint8_t role)
{
    static const uint16_t statuses[] = { 0, 0, 0, 1, 17, 30, 65535 };
    static const uint16_t aids[] = { 0xC001, 1, 0x4001, 2007, 0xC7D7, 0, 2008, 0xC000, 0x3FFF, 0xFFFF };

    if (subtype == PT_AUTH) {
        pt_put16(frame + 24, (uint16_t)(percent(c, 92) ? 0 : 1 + below(c, 65535)));
        pt_put16(frame + 26, (uint16_t)(percent(c, 90) ? draw_transaction(c, role) : below(c, 4)));
        pt_put16(frame + 28, ONE_OF(c, statuses));
    } else if (subtype == PT_ASSOC_RESPONSE || subtype == PT_REASSOC_RESPONSE) {
        pt_put16(frame + 26, ONE_OF(c, statuses));
        pt_put16(frame + 28, ONE_OF(c, aids));
    }
}

/* An SA Query frame, mostly with the identifier of the peer's record: 28 octets, now and then cut or with more behind. */
static void draw_query(struct chance *c, struct call *call, uint64_t peer)
{
    uint8_t *frame = call->frame;

    frame[24] = (uint8_t)(percent(c, 92) ? PEER_CATEGORY_SA_QUERY : below(c, 256));
    frame[25] = (uint8_t)(percent(c, 92) ? below(c, 2) : below(c, 256));
    if (percent(c, 75))
        pt_put16(frame + 26, standing(call, peer).identifier);
    call->frame_octets = percent(c, 80) ? PEER_QUERY_OCTETS : 24 + below(c, 10);
}

static size_t draw_length(struct chance *c)
{
    static const size_t lengths[] = { 0, 9, 10, 15, 16, 23, 24, 25, 26, 27, 28, 29, 30, 33, 34, 35, 60, 4095, 4096, 4097, 5000 };

    return percent(c, 85) ? ONE_OF(c, lengths) : below(c, 200);
}

/* Half the frames are of the eight management subtypes that act, long enough; the others are of any kind and length. */
void draw_frame(struct chance *c, struct call *call, uint64_t peer)
{
    static const uint8_t acting[] = { 0, 1, 2, 3, 10, 11, 11, 12, 13, 13 }, categories[] = { 3, 4, 4, 5, 8 };
    bool meant = percent(c, 60);
    unsigned type = meant ? MANAGEMENT : below(c, 4), subtype = meant ? ONE_OF(c, acting) : below(c, 16);
    uint8_t *frame = call->frame;

    draw_octets(c, frame, 96);
    frame[0] = (uint8_t)(type << 2 | subtype << 4 | (percent(c, 97) ? 0 : below(c, 4)));
    pt_put48(frame + 4, receiver(c, own_of(call)));
    pt_put48(frame + 10, peer);
    if (type == MANAGEMENT && subtype == PT_ACTION)
        frame[24] = ONE_OF(c, categories);
    call->frame_octets = draw_length(c);
    if (meant && subtype == PT_ACTION) {
        draw_query(c, call, peer);
    } else if (meant) {
        draw_body(c, frame, subtype, call->settings.role);
        call->frame_octets = RESPONSE_ELEMENTS + (subtype == PT_REASSOC_REQUEST ? 4 : 0);
        call->frame_octets += draw_elements(c, frame + call->frame_octets);
    }
}

static void draw_primitive(struct chance *c, struct call *call)
{
    static const uint8_t of_role[][8] = { { 2, 7, 8, 10, 11, 3, 6, 9 }, { 1, 4, 5, 1, 4, 3, 6, 9 }, { 1, 2, 1, 2, 1, 2, 3, 3 } };
    static const uint16_t codes[] = { 0, 1, 2, 17, 256, 65535 };

    call->primitive = of_role[call->settings.role - PEER_AP][below(c, 8)];
    if (percent(c, 5))
        call->address = draw_sender(c, call, call->address); /* a link, which no primitive names */
    if (percent(c, 20))
        call->primitive = (uint8_t)below(c, percent(c, 50) ? 13 : 256);
    call->number = ONE_OF(c, codes);
    if (percent(c, 75))
        call->number = call->primitive == 10 || call->primitive == 3 || call->primitive == 6;
}

size_t draw_out(struct chance *c, enum call_kind kind)
{
    static const size_t lengths[] = { 0, 1, 26, 33, 34, 36, 37, 38, 255, 256, 257, 4200 };

    if (percent(c, 4))
        return ONE_OF(c, lengths);
    return kind == CALL_PASS ? PEER_PASS_OUT_LEAST : percent(c, 80) ? PEER_OUT_LEAST : PEER_OUT_LEAST + below(c, 30);
}

void draw_event(struct chance *c, struct call *call)
{
    static const uint16_t steps[] = { 1, 1, 1, 2, 5, 40, 201, 1000, 1953, 1954, 65535, 0 };
    uint64_t peer = draw_address(c, own_of(call));
    unsigned kind = below(c, 100);

    call->kind = kind < 50 ? CALL_RECEIVE : kind < 82 ? CALL_ASK : kind < 90 ? CALL_LINKS : CALL_PASS;
    call->address = peer;
    if (call->kind == CALL_RECEIVE)
        draw_frame(c, call, draw_sender(c, call, peer));
    else if (call->kind == CALL_LINKS)
        draw_named(c, call);
    else if (call->kind == CALL_ASK)
        draw_primitive(c, call);
    else
        call->number = ONE_OF(c, steps);
    call->out_octets = draw_out(c, call->kind);
}
