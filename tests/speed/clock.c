/* clock.c - clock steps over 32 places: at an AP, and at a station with holds and exchanges. */
#include "make.h"

void make_clock_ap(struct maker *m, unsigned peers)
{
    for (unsigned i = 0; i < peers; i++)
        join_at_ap(m, peer_address(i));
    setup_done(m);
    while (!m->full)
        let_pass(m, (uint16_t)(1 + below(&m->chance, 100)));
}

/* A third of the places hold, a third has an exchange under way, one AP is joined; now and then one is asked again. */
void make_clock_station(struct maker *m, unsigned peers)
{
    for (unsigned i = 0; i < peers; i++) {
        know_at_station(m, peer_address(i));
        if (i % 3 == 0) {
            ask(m, PEER_ASSOCIATE_REQUEST, peer_address(i), 0);
            hear_response(m, peer_address(i), false, PEER_STATUS_TRY_LATER, 1000 + below(&m->chance, 60000));
        } else if (i % 3 == 1) {
            ask(m, PEER_AUTHENTICATE_REQUEST, peer_address(i), 0);
            let_pass(m, (uint16_t)(1 + below(&m->chance, 5000)));
        }
    }
    join_at_station(m, peer_address(2));
    setup_done(m);
    while (!m->full) {
        if (below(&m->chance, 64) == 0)
            ask(m, PEER_AUTHENTICATE_REQUEST, peer_address(below(&m->chance, peers)), 0);
        else
            let_pass(m, (uint16_t)(1 + below(&m->chance, 40)));
    }
}
