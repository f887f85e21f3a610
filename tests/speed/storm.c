/* storm.c - a storm of forged frames: senders without a record, frames for others, bad lengths, joins that were never begun. */
#include "make.h"

/* Frames cut short, of no class or another version, from impossible senders. */
static void nonsense(struct maker *m)
{
    static const uint8_t subtypes[] = { 0, 1, 2, 3, 10, 11, 12 };
    static const uint64_t senders[] = { 0, BROADCAST, OWN, 1 };

    switch (below(&m->chance, 5)) {
    case 0:
    case 1:
        hear(m, MANAGEMENT, subtypes[below(&m->chance, 7)], OWN, stranger_address(m), below(&m->chance, 26));
        break;
    case 2:
        hear(m, DATA, 0, OWN, senders[below(&m->chance, 4)], 60);
        break;
    case 3:
        hear(m, MANAGEMENT, 15, OWN, stranger_address(m), 60);
        break;
    default:
        hear(m, MANAGEMENT, PT_DEAUTH, OWN, stranger_address(m), 26)[0] |= 1;
    }
}

/* Forged frames: from senders without a record, for others, and nonsense; requests of joins that were never begun. */
static void storm(struct maker *m)
{
    while (!m->full) {
        uint64_t from = stranger_address(m);
        unsigned left = below(&m->chance, 1000);

        if (drawn(&left, 250))
            hear(m, DATA, 8, OWN, from, 60);
        else if (drawn(&left, 200))
            hear_farewell(m, below(&m->chance, 2), below(&m->chance, 4) ? OWN : BROADCAST, from);
        else if (drawn(&left, 180))
            hear_farewell(m, true, peer_address(below(&m->chance, 16)), below(&m->chance, 2) ? OWN : from);
        else if (drawn(&left, 200))
            nonsense(m);
        else if (drawn(&left, 70))
            hear_request(m, from);
        else if (drawn(&left, 40))
            hear_response(m, from, below(&m->chance, 2), below(&m->chance, 2) ? 0 : 17, 0);
        else
            hear_authentication(m, from, (uint16_t)(1 + below(&m->chance, 2)), (uint16_t)(below(&m->chance, 4) ? 3 : 0));
    }
}

void make_storm_ap(struct maker *m, unsigned peers)
{
    for (unsigned i = 0; i < peers; i++)
        join_at_ap(m, peer_address(i));
    setup_done(m);
    storm(m);
}

void make_storm_station(struct maker *m, unsigned peers)
{
    for (unsigned i = 0; i < peers; i++)
        know_at_station(m, peer_address(i));
    join_at_station(m, peer_address(3));
    setup_done(m);
    storm(m);
}
