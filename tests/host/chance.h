/* chance.h - chances drawn from a seed: the same numbers on every machine (xorshift64*). */
#ifndef CHANCE_H
#define CHANCE_H

#include <stdbool.h>
#include <stddef.h>
#include <stdint.h>

struct chance {
    uint64_t state;
};

static inline struct chance chance_of(uint64_t seed)
{
    return (struct chance){ (seed + 1) * 0x9E3779B97F4A7C15u | 1 };
}

static inline uint64_t draw(struct chance *c)
{
    c->state ^= c->state >> 12;
    c->state ^= c->state << 25;
    c->state ^= c->state >> 27;
    return c->state * 0x2545F4914F6CDD1Du;
}

static inline unsigned below(struct chance *c, unsigned bound)
{
    return (unsigned)((draw(c) >> 33) % bound);
}

static inline bool percent(struct chance *c, unsigned of_hundred)
{
    return below(c, 100) < of_hundred;
}

static inline void draw_octets(struct chance *c, uint8_t *p, size_t count)
{
    for (size_t i = 0; i < count; i++)
        p[i] = (uint8_t)(draw(c) >> 56);
}

#define ONE_OF(c, list) ((list)[below((c), (unsigned)(sizeof(list) / sizeof *(list)))])

#endif
