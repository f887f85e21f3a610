/* why.h - which rule decided an event: one of the words, and the value beside it. */
#ifndef WHY_H
#define WHY_H

#include "bench.h"

/* Words: refusal-1 to refusal-9, no-class, class-filter, group-rule, nothing-to-do, none. The value is a
   frame's length for refusal 3, the peer's state for refusal 7 and the class filter, the hold left for
   refusal 8, else 0. */
struct reason {
    const char *word;
    uint32_t value;
};

/* The first rule that decides the event that a record holds, where so many bytes are lent. */
struct reason why_of(const struct pt_settings *s, const struct pt_record *table,
                     const struct input *in, size_t lent);

/* The same of a primitive, once settings and table are well formed (why_ask.c). */
struct reason why_primitive(const struct pt_settings *s, const struct pt_record *table,
                            const struct input *in);

/* The record that an address leads to, as a link's or as a device's, or NULL. */
const struct pt_record *why_record(const struct pt_record *table, uint64_t address);

#endif
