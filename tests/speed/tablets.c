/* tablets.c - tablets at an AP: each joins once and then sends over four links; a few come and go, and speak over another link then. */
#include "make.h"

/* Four addresses behind one another, none of them the device's. */
static uint64_t link_address(unsigned device, unsigned number)
{
    return 0x000000000206u + ((uint64_t)(PT_LINKS * device + number) << 32);
}

/* Asked over one link; what the AP asks names the device. */
static void join(struct maker *m, unsigned device, unsigned number)
{
    uint64_t peer = peer_address(device), link = link_address(device, number);

    hear_authentication(m, link, 1, 0);
    ask(m, PEER_AUTHENTICATE_RESPONSE, peer, PEER_STATUS_SUCCESS);
    hear_request(m, link);
    ask(m, PEER_ASSOCIATE_RESPONSE, peer, PEER_STATUS_SUCCESS);
    ask(m, PEER_TRANSMIT_REPORT, peer, PEER_ACKNOWLEDGED);
}

static void name(struct maker *m, unsigned device)
{
    uint64_t links[PT_LINKS];

    for (unsigned i = 0; i < PT_LINKS; i++)
        links[i] = link_address(device, i);
    name_links(m, peer_address(device), links, PT_LINKS);
}

/* One leaves over a link, is named again, and joins over another. */
static void come_again(struct maker *m, unsigned device)
{
    hear_farewell(m, true, OWN, link_address(device, below(&m->chance, PT_LINKS)));
    if (below(&m->chance, 2))
        name(m, device);
    join(m, device, below(&m->chance, PT_LINKS));
}

/* Mostly data; block acknowledgements, and authentications that are denied for their algorithm, between. */
void make_tablets_ap(struct maker *m, unsigned peers)
{
    for (unsigned i = 0; i < peers; i++) {
        name(m, i);
        join(m, i, i % PT_LINKS);
    }
    setup_done(m);
    while (!m->full) {
        unsigned device = below(&m->chance, peers), left = below(&m->chance, 100);
        uint64_t link = link_address(device, below(&m->chance, PT_LINKS));

        if (drawn(&left, 75))
            hear(m, DATA, below(&m->chance, 4) ? 8 : 0, OWN, link, 60 + below(&m->chance, 240));
        else if (drawn(&left, 8))
            hear(m, CONTROL, below(&m->chance, 2) ? 8 : 9, OWN, link, 32);
        else if (drawn(&left, 6))
            hear_authentication(m, link, 1, 3);
        else if (drawn(&left, 5))
            hear(m, MANAGEMENT, 8, BROADCAST, neighbour_address(below(&m->chance, NEIGHBOURS)), 180);
        else if (drawn(&left, 3))
            let_pass(m, 1);
        else
            come_again(m, device);
    }
}
