/* draw.h - things drawn by chance: addresses, settings, tables well formed and spoilt, frames, primitives, links named, clock steps. */
#ifndef DRAW_H
#define DRAW_H

#include "call.h"

enum { POOL = 40 }; /* addresses that records and events are drawn from, so that they meet */

uint64_t pool_address(unsigned number);
uint64_t draw_address(struct chance *c, uint64_t own); /* mostly of the pool; own, group, zero and over 2^48 too */
peer_settings draw_settings(struct chance *c, uint8_t role);
void spoil_settings(struct chance *c, peer_settings *s);
uint64_t own_of(const struct call *call);

/* Table, settings and answer of the lengths that a host has: now and then settings from before there were ad hoc networks, queries, or
   editions. Then now and then another length of settings or answer. */
void lend_usual(struct call *call, struct chance *c);
void draw_lengths(struct chance *c, struct call *call);

/* A table, crowded or not, that is well formed under the call's settings; then one with a single field spoilt. */
void draw_table(struct chance *c, struct call *call);
void spoil_table(struct chance *c, const peer_settings *s, uint8_t *octets);

/* Links: four of each address of the pool; those of a record; the address that a peer's frame comes from, of a link where it has some; a
   device and its links as our side names them, good and bad; and a link of a record spoilt. */
uint64_t link_address(unsigned device, unsigned number);
void draw_links(struct chance *c, unsigned device, struct pt_record *r);
uint64_t draw_sender(struct chance *c, const struct call *call, uint64_t peer);
void draw_named(struct chance *c, struct call *call);
void spoil_links(struct chance *c, const peer_settings *s, uint8_t *r, const uint8_t *other);

/* The record of an address, a device's or a link's, as the call's table stands, or zeros. */
struct pt_record standing(const struct call *call, uint64_t address);

/* An event that may mean something to the table as it stands; the buffer is nearly always long enough. */
void draw_event(struct chance *c, struct call *call);
void draw_frame(struct chance *c, struct call *call, uint64_t peer);
uint16_t draw_transaction(struct chance *c, uint8_t role);
size_t draw_out(struct chance *c, enum call_kind kind);

#endif
