/* stack.h - one call of the library, and the stack that it used. */
#ifndef STACK_H
#define STACK_H

#include <stddef.h>
#include <stdint.h>

/* Many events in one call, behind the four single ones. */
enum { CALL_RUN = 4 };

/* What a call is given: slices in the order table, settings, frame, links named or records, out, answers. */
struct replayed {
    uint8_t kind; /* 0 a frame, 1 a primitive, 2 a clock step, 3 links named, CALL_RUN */
    uint8_t primitive;
    uint16_t number;
    uint64_t address;
    struct {
        uint8_t *at;
        size_t octets;
    } slices[5];
};

/* Makes the call over a painted stack, and gives its result. */
uint64_t call_watched(const struct replayed *call);

/* The most octets that a call took below its caller's frame, the return address among them. */
size_t stack_deepest(void);

#endif
