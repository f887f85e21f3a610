/* side.h - one side of the air, access point or scanner: its settings, its table, and the four calls with a line said of each. */
#ifndef SIDE_H
#define SIDE_H

#include "peer_table.h"

struct side {
    const char *name;
    peer_settings settings;
    peer_table table; /* all zero: empty */
    uint8_t out[PEER_PASS_OUT_LEAST];
};

/* Each call says what was done and what came of it, and gives back the answer. What was written stands in side->out. */
peer_answer side_receive(struct side *side, const char *what, const uint8_t *frame, size_t octets);
peer_answer side_ask(struct side *side, const char *what, uint8_t primitive, uint64_t address, uint16_t code);
peer_answer side_links(struct side *side, const char *what, uint64_t device, const uint64_t *links, size_t count);
peer_answer side_pass(struct side *side, uint16_t step);

/* The side's own address as a number. */
uint64_t side_address(const struct side *side);

#endif
