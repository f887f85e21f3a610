/* memory.c - the functions that compiled code asks of a C library, and of the compiler's own, on a board or in a program that has neither. */
#include <stddef.h>
#include <stdint.h>

void *memcpy(void *to, const void *from, size_t count)
{
    uint8_t *t = to;
    const uint8_t *f = from;

    while (count-- > 0)
        *t++ = *f++;
    return to;
}

void *memmove(void *to, const void *from, size_t count)
{
    uint8_t *t = to;
    const uint8_t *f = from;

    if (t <= f)
        return memcpy(to, from, count);
    while (count-- > 0)
        t[count] = f[count];
    return to;
}

void *memset(void *to, int value, size_t count)
{
    uint8_t *t = to;

    while (count-- > 0)
        *t++ = (uint8_t)value;
    return to;
}

#if defined(__arm__)
/* The names of the Arm ABI. */
#define COPY(name) void name(void *to, const void *from, size_t count) { memmove(to, from, count); }
#define CLEAR(name) void name(void *to, size_t count) { memset(to, 0, count); }
COPY(__aeabi_memcpy) COPY(__aeabi_memcpy4) COPY(__aeabi_memcpy8) COPY(__aeabi_memmove) COPY(__aeabi_memmove4) COPY(__aeabi_memmove8)
CLEAR(__aeabi_memclr) CLEAR(__aeabi_memclr4) CLEAR(__aeabi_memclr8)

/* Division, where a processor has no instruction for it: bit by bit. By 0 it is not asked for. */
uint32_t __aeabi_uidiv(uint32_t number, uint32_t by);
uint32_t __aeabi_uidiv(uint32_t number, uint32_t by)
{
    uint32_t rest = 0, result = 0;
    int bit;

    for (bit = 31; bit >= 0; bit--) {
        rest = rest << 1 | (number >> bit & 1);
        result <<= 1;
        if (rest >= by) {
            rest -= by;
            result |= 1;
        }
    }
    return result;
}

/* The product of numbers of 64 bits, by sums: an operator would ask for this very function. */
uint64_t __aeabi_lmul(uint64_t a, uint64_t b);
uint64_t __aeabi_lmul(uint64_t a, uint64_t b)
{
    uint64_t product = 0;

    for (; b > 0; b >>= 1, a <<= 1)
        if (b & 1)
            product += a;
    return product;
}
#endif
