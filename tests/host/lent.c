/* lent.c - one area for each thing lent, and for the stack: a page without access, the room, a page without access. A read or write
   beyond the lent octets ends in a fault at once, or changes a guard octet, which is seen after the call. */
#define _DEFAULT_SOURCE
#include "lent.h"

#include <string.h>
#include <sys/mman.h>

/* A "page" here is larger than any system's. */
enum { PAGE = 65536, GUARD = 64 };

static struct {
    uint8_t *room; /* PAGE octets that may be read and written */
    size_t start, length;
    uint8_t paint;
} areas[LENT_ALL];

bool lent_start(void)
{
    for (int i = 0; i < LENT_ALL; i++) {
        uint8_t *all = mmap(NULL, 3 * (size_t)PAGE, PROT_NONE, MAP_PRIVATE | MAP_ANONYMOUS, -1, 0);

        if (all == MAP_FAILED || mprotect(all + PAGE, PAGE, PROT_READ | PROT_WRITE) != 0)
            return false;
        areas[i].room = all + PAGE;
    }
    return true;
}

/* Guard octets before what is lent, as far as the room goes; and after it. */
static size_t before(enum lent which)
{
    return areas[which].start < GUARD ? areas[which].start : GUARD;
}

static size_t after(enum lent which)
{
    size_t left = PAGE - areas[which].start - areas[which].length;

    return left < GUARD ? left : GUARD;
}

uint8_t *lend(enum lent which, struct chance *chance, const uint8_t *contents, size_t length)
{
    unsigned where = below(chance, 4);
    size_t start = where == 0 ? 0 : where == 1 ? GUARD + below(chance, 64) : PAGE - length;
    uint8_t *at = areas[which].room + start;

    areas[which].start = start;
    areas[which].length = length;
    areas[which].paint = (uint8_t)draw(chance);
    memset(at - before(which), areas[which].paint, before(which));
    memset(at + length, areas[which].paint, after(which));
    if (length > 0)
        memcpy(at, contents, length);
    return at;
}

static bool all_paint(const uint8_t *p, size_t count, uint8_t paint)
{
    for (size_t i = 0; i < count; i++)
        if (p[i] != paint)
            return false;
    return true;
}

bool lent_round_about(enum lent which)
{
    const uint8_t *at = areas[which].room + areas[which].start;

    return all_paint(at - before(which), before(which), areas[which].paint) &&
           all_paint(at + areas[which].length, after(which), areas[which].paint);
}

uint8_t *lent_stack(size_t octets)
{
    return areas[LENT_STACK].room + octets;
}
