/* joins.c - joins and leaves: scanners at an AP; a station that is rejected, waits, joins, roams and leaves. */
#include "make.h"

/* Scanners come and go; most find a place, a few find the table full. */
void make_joins_ap(struct maker *m, unsigned peers)
{
    bool present[64] = { false };

    setup_done(m);
    while (!m->full) {
        unsigned i = below(&m->chance, peers);
        uint64_t peer = peer_address(i);

        if (!present[i]) {
            join_at_ap(m, peer);
            hear(m, DATA, 8, OWN, peer, 200);
        } else if (below(&m->chance, 3) == 0) {
            ask(m, PEER_DEAUTHENTICATE, peer, PEER_REASON_LEAVING);
        } else {
            hear_farewell(m, below(&m->chance, 2), OWN, peer);
        }
        present[i] = !present[i];
        if (below(&m->chance, 4) == 0)
            let_pass(m, 1);
    }
}

/* A station joins, roams, is rejected with a comeback, waits, and leaves. */
void make_joins_station(struct maker *m, unsigned peers)
{
    setup_done(m);
    while (!m->full) {
        uint64_t first = peer_address(below(&m->chance, peers)), second = peer_address(below(&m->chance, peers));

        know_at_station(m, first);
        ask(m, PEER_ASSOCIATE_REQUEST, first, 0);
        hear_response(m, first, false, PEER_STATUS_TRY_LATER, below(&m->chance, 3));
        let_pass(m, (uint16_t)(2 + below(&m->chance, 3)));
        join_at_station(m, first);
        hear(m, DATA, 8, OWN, first, 200);
        know_at_station(m, second);
        ask(m, PEER_REASSOCIATE_REQUEST, second, 0);
        hear_response(m, second, true, PEER_STATUS_SUCCESS, -1);
        hear(m, DATA, 8, OWN, second, 200);
        if (below(&m->chance, 2))
            hear_farewell(m, true, OWN, second);
        else
            ask(m, PEER_DISASSOCIATE, second, PEER_REASON_LEFT_BSS);
        ask(m, PEER_DEAUTHENTICATE, first, PEER_REASON_LEAVING);
        let_pass(m, 1);
    }
}
