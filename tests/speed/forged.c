/* forged.c - forged requests at an AP with protection: each is rejected for now, and the scanner in whose name it came is asked. */
#include "make.h"

/* Requests in the name of scanners that have joined; each query is sent and answered, and data comes between. */
void make_forged_ap(struct maker *m, unsigned peers)
{
    uint16_t identifiers[64] = { 0 };

    m->stream->settings.edition = PEER_EDITION_2;
    m->stream->settings.protection = 1;
    for (unsigned i = 0; i < peers; i++)
        join_at_ap(m, peer_address(i));
    setup_done(m);
    while (!m->full) {
        unsigned i = below(&m->chance, peers);
        uint64_t peer = peer_address(i);

        for (unsigned n = 1 + below(&m->chance, 3); n > 0; n--)
            hear_request(m, peer);
        ask(m, PEER_SA_QUERY_REQUEST, peer, 0);
        hear(m, DATA, 8, OWN, peer, 200);
        hear_query(m, peer, PEER_ACTION_QUERY_RESPONSE, ++identifiers[i]);
        if (below(&m->chance, 4) == 0)
            let_pass(m, 1);
    }
}
