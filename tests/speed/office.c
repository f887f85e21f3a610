/* office.c - an office hour: mostly data and beacons of peers in State 4, at an AP and at a station. */
#include "make.h"

static uint32_t data_length(struct maker *m)
{
    return below(&m->chance, 10) < 4 ? 1500 : 60 + below(&m->chance, 240);
}

/* What is on the air anyway: beacons of neighbours, acknowledgements, probes, frames for others, and the clock. */
static void background(struct maker *m)
{
    static const uint8_t kinds[] = { 13, 13, 13, 12 }; /* ACK, CTS */
    unsigned left = below(&m->chance, 100);

    if (drawn(&left, 62))
        hear(m, MANAGEMENT, 8, BROADCAST, neighbour_address(below(&m->chance, NEIGHBOURS)), 180);
    else if (drawn(&left, 22))
        hear(m, CONTROL, kinds[below(&m->chance, 4)], OWN, 0, 10);
    else if (drawn(&left, 7))
        hear(m, MANAGEMENT, 4, BROADCAST, stranger_address(m), 70);
    else if (drawn(&left, 6))
        hear(m, DATA, 8, neighbour_address(below(&m->chance, NEIGHBOURS)), stranger_address(m), data_length(m));
    else
        let_pass(m, 1);
}

/* Many scanners send data; PS-Poll, block acknowledgements and actions between. */
void make_office_ap(struct maker *m, unsigned peers)
{
    static const uint8_t data[] = { 8, 8, 8, 0, 4, 12 };

    for (unsigned i = 0; i < peers; i++)
        join_at_ap(m, peer_address(i));
    setup_done(m);
    while (!m->full) {
        uint64_t from = peer_address(below(&m->chance, peers));
        unsigned left = below(&m->chance, 1000);

        if (drawn(&left, 620))
            hear(m, DATA, data[below(&m->chance, 6)], OWN, from, data_length(m));
        else if (drawn(&left, 20))
            hear(m, CONTROL, below(&m->chance, 2) ? 10 : 9, OWN, from, 16);
        else if (drawn(&left, 10))
            hear(m, MANAGEMENT, 13, OWN, from, 40);
        else
            background(m);
    }
}

/* One AP sends data and beacons; the station knows some others from roaming. */
void make_office_station(struct maker *m, unsigned peers)
{
    for (unsigned i = 0; i < peers; i++)
        know_at_station(m, peer_address(i));
    uint64_t ap = peer_address(peers / 2);
    join_at_station(m, ap);
    setup_done(m);
    while (!m->full) {
        unsigned left = below(&m->chance, 1000);

        if (drawn(&left, 450))
            hear(m, DATA, below(&m->chance, 4) ? 8 : 0, below(&m->chance, 8) ? OWN : BROADCAST, ap, data_length(m));
        else if (drawn(&left, 280))
            hear(m, MANAGEMENT, 8, BROADCAST, ap, 180);
        else if (drawn(&left, 80))
            hear(m, MANAGEMENT, 8, BROADCAST, peer_address(below(&m->chance, peers)), 180);
        else if (drawn(&left, 10))
            hear(m, MANAGEMENT, 13, OWN, ap, 40);
        else
            background(m);
    }
}
