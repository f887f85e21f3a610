/* draw_links.c - the links of devices by chance: in a table, named by our side, and spoilt. Each address of the pool has four of its own. */
#include "draw.h"

#include <string.h>

enum { LINKS = 24 }; /* offset in a record's octets */

uint64_t link_address(unsigned device, unsigned number)
{
    return 0x000000000406u + ((uint64_t)(PT_LINKS * (device % POOL) + number % PT_LINKS) << 40);
}

/* One to four of a device's own, from any of them on. */
void draw_links(struct chance *c, unsigned device, struct pt_record *r)
{
    unsigned from = below(c, PT_LINKS);

    r->link_count = (uint8_t)(1 + below(c, PT_LINKS));
    for (unsigned i = 0; i < r->link_count; i++)
        r->links[i] = link_address(device, from + i);
}

uint64_t draw_sender(struct chance *c, const struct call *call, uint64_t peer)
{
    struct pt_record r = standing(call, peer);

    if (r.link_count == 0 || r.link_count > PT_LINKS || percent(c, 10))
        return peer & 0xffffffffffffu;
    return r.links[below(c, r.link_count)];
}

/* An address that is most often not allowed as a link: invalid, own, a device's, this one's too, another's link, or one named already. */
static uint64_t odd_link(struct chance *c, const struct call *call, const uint8_t *named)
{
    static const uint64_t odd[] = { 0, 1, 0xffffffffffffu, 0x0a0000000003u };

    switch (below(c, 6)) {
    case 0:
        return ONE_OF(c, odd);
    case 1:
        return own_of(call);
    case 2:
        return pt_get48(named);
    case 3:
        return pool_address(below(c, POOL));
    case 4:
        return pt_get48(named + PEER_NAMED_OCTETS_LEAST + PEER_ADDRESS_OCTETS * below(c, PT_LINKS));
    default:
        return link_address(below(c, POOL), below(c, PT_LINKS));
    }
}

/* The device is the call's peer; now and then a link's address, a list with one that may not be there, too long, or cut. */
void draw_named(struct chance *c, struct call *call)
{
    static const uint8_t counts[] = { 0, 1, 1, 2, 2, 3, 4, 4, 4 }, over[] = { 5, 6, 128, 255 };
    uint8_t *named = call->frame;
    uint64_t device = percent(c, 94) ? call->address : link_address(below(c, POOL), below(c, PT_LINKS));
    unsigned number = (unsigned)(device >> 32 & 0xff), from = below(c, PT_LINKS);

    call->kind = CALL_LINKS;
    memset(named, 0, PEER_NAMED_OCTETS_LEAST + PEER_ADDRESS_OCTETS * 255);
    pt_put48(named, device & 0xffffffffffffu);
    named[PEER_ADDRESS_OCTETS] = percent(c, 95) ? ONE_OF(c, counts) : ONE_OF(c, over);
    for (unsigned i = 0; i < named[PEER_ADDRESS_OCTETS]; i++)
        pt_put48(named + PEER_NAMED_OCTETS_LEAST + PEER_ADDRESS_OCTETS * i, link_address(number, from + i));
    if (percent(c, 30) && named[PEER_ADDRESS_OCTETS] > 0)
        pt_put48(named + PEER_NAMED_OCTETS_LEAST + PEER_ADDRESS_OCTETS * below(c, named[PEER_ADDRESS_OCTETS]), odd_link(c, call, named));
    call->frame_octets = PEER_NAMED_OCTETS_LEAST + (size_t)PEER_ADDRESS_OCTETS * named[PEER_ADDRESS_OCTETS];
    if (percent(c, 4))
        call->frame_octets = below(c, 40);
}

/* One link of a record: a gap, an address that may not stand there, one of another record, a device's, or links where there were none. */
void spoil_links(struct chance *c, const peer_settings *s, uint8_t *r, const uint8_t *other)
{
    static const uint64_t odd[] = { 1, 0xffffffffffffu, 0x0a0000000003u, 0x060000000002u };
    uint8_t *link = r + LINKS + PEER_ADDRESS_OCTETS * below(c, PT_LINKS);
    const uint8_t *from = other + LINKS + PEER_ADDRESS_OCTETS * below(c, PT_LINKS);

    switch (below(c, 7)) {
    case 0:
        memset(link, 0, PEER_ADDRESS_OCTETS);
        break;
    case 1:
        memcpy(link, s->own, PEER_ADDRESS_OCTETS);
        break;
    case 2:
        pt_put48(link, ONE_OF(c, odd));
        break;
    case 3:
        memcpy(link, from, PEER_ADDRESS_OCTETS);
        break;
    case 4:
        memcpy(link, percent(c, 50) ? r : other, PEER_ADDRESS_OCTETS);
        break;
    case 5:
        memcpy(link, r + LINKS + PEER_ADDRESS_OCTETS * below(c, PT_LINKS), PEER_ADDRESS_OCTETS);
        break;
    default:
        pt_put48(r + LINKS, link_address(below(c, POOL), below(c, PT_LINKS)));
    }
}
