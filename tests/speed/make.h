/* make.h - what the makers of streams share: chances, addresses, frames, and events put at the end of a stream. */
#ifndef MAKE_H
#define MAKE_H

#include "chance.h"
#include "stream.h"

enum { MANAGEMENT = 0, CONTROL = 1, DATA = 2 };
enum { NEIGHBOURS = 8 };

#define OWN 0x0a0000000002u      /* 02:00:00:00:00:0a */
#define BROADCAST 0xffffffffffffu

struct maker {
    struct stream *stream;
    struct chance chance;
    bool full; /* the wanted number of events is reached; a join begun may go a few beyond */
};

struct maker maker_of(struct stream *stream, uint64_t seed, uint8_t role);
void setup_done(struct maker *m);

/* A peer by its number, and addresses that are nobody's record: a neighbour network's, a stranger's. */
uint64_t peer_address(unsigned number);
uint64_t neighbour_address(unsigned number);
uint64_t stranger_address(struct maker *m);

/* A frame of this type and subtype; octets 24 and on are zero unless set by what is given back. */
uint8_t *hear(struct maker *m, unsigned type, unsigned subtype, uint64_t to, uint64_t from, uint32_t length);
void hear_authentication(struct maker *m, uint64_t from, uint16_t transaction, uint16_t algorithm);
void hear_request(struct maker *m, uint64_t from);
void hear_response(struct maker *m, uint64_t from, bool again, uint16_t status, int64_t comeback);
void hear_query(struct maker *m, uint64_t from, uint8_t action, uint16_t identifier);
void hear_farewell(struct maker *m, bool deauthentication, uint64_t to, uint64_t from);
void ask(struct maker *m, uint8_t primitive, uint64_t address, uint16_t code);
void name_links(struct maker *m, uint64_t device, const uint64_t *links, uint32_t count);
void let_pass(struct maker *m, uint16_t step);

/* Weights: `left` was drawn below their sum; true for the one that it falls to. */
bool drawn(unsigned *left, unsigned weight);

/* Whole joins. */
void join_at_ap(struct maker *m, uint64_t peer);
void know_at_station(struct maker *m, uint64_t peer);
void join_at_station(struct maker *m, uint64_t peer);

/* The streams; each calls setup_done once. */
void make_office_ap(struct maker *m, unsigned peers);
void make_office_station(struct maker *m, unsigned peers);
void make_storm_ap(struct maker *m, unsigned peers);
void make_storm_station(struct maker *m, unsigned peers);
void make_joins_ap(struct maker *m, unsigned peers);
void make_joins_station(struct maker *m, unsigned peers);
void make_clock_ap(struct maker *m, unsigned peers);
void make_clock_station(struct maker *m, unsigned peers);
void make_forged_ap(struct maker *m, unsigned peers);
void make_ad_hoc(struct maker *m, unsigned peers);
void make_tablets_ap(struct maker *m, unsigned peers);

#endif
