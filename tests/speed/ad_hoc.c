/* ad_hoc.c - scanners without an AP: lists sent from one to the other, a few that come and go, some that ask at once. */
#include "make.h"

/* Both ask at once: the request that is heard takes the place of ours, and is answered. */
static void cross(struct maker *m, uint64_t peer)
{
    ask(m, PEER_AUTHENTICATE_REQUEST, peer, 0);
    hear_authentication(m, peer, 1, 0);
    ask(m, PEER_AUTHENTICATE_RESPONSE, peer, PEER_STATUS_SUCCESS);
    hear_authentication(m, peer, 2, 0);
}

/* One leaves and comes again: it asks, we do, or both. */
static void come_again(struct maker *m, uint64_t peer)
{
    hear_farewell(m, true, OWN, peer);
    if (below(&m->chance, 2)) {
        cross(m, peer);
    } else if (below(&m->chance, 2)) {
        know_at_station(m, peer);
    } else {
        hear_authentication(m, peer, 1, 0);
        ask(m, PEER_AUTHENTICATE_RESPONSE, peer, PEER_STATUS_SUCCESS);
    }
}

/* Mostly data with To DS and From DS 0 and block acknowledgements; data that goes over an AP is discarded. */
void make_ad_hoc(struct maker *m, unsigned peers)
{
    peer_address_write(0xad0000000006u, m->stream->settings.network);
    for (unsigned i = 0; i < peers; i++)
        cross(m, peer_address(i));
    setup_done(m);
    while (!m->full) {
        uint64_t from = peer_address(below(&m->chance, peers));
        unsigned left = below(&m->chance, 100);

        if (drawn(&left, 60))
            hear(m, DATA, below(&m->chance, 4) ? 8 : 0, OWN, from, 60 + below(&m->chance, 240));
        else if (drawn(&left, 10))
            hear(m, CONTROL, below(&m->chance, 2) ? 8 : 9, OWN, from, 32);
        else if (drawn(&left, 15))
            hear(m, MANAGEMENT, 8, BROADCAST, neighbour_address(below(&m->chance, NEIGHBOURS)), 180);
        else if (drawn(&left, 5))
            hear(m, DATA, 8, OWN, from, 200)[1] = 1;
        else if (drawn(&left, 5))
            let_pass(m, 1);
        else
            come_again(m, from);
    }
}
