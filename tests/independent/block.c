/* block.c - one block of the month: exact in 64 bits, `over` in its own place where a number would pass them. */
#include "month.h"

#include <inttypes.h>

const struct block_line block_lines[BLOCK_LINES] = {
    { "events", MONTH_EVENTS, 1 },     { "refusals", MONTH_REFUSALS, 9 },
    { "discards", MONTH_DISCARDS, 3 }, { "joins", MONTH_JOINS, 1 },
    { "leaves", MONTH_LEAVES, 1 },     { "timeouts", MONTH_TIMEOUTS, 5 },
    { "holds", MONTH_HOLDS, 1 },       { "longest", MONTH_LONGEST, 1 },
    { "total", MONTH_TOTAL, 1 },
};

static void add(struct number *n, struct number more)
{
    n->over = n->over || more.over || n->value > UINT64_MAX - more.value;
    n->value = n->over ? 0 : n->value + more.value;
}

/* The longest hold is the longer of two, all else is a sum. */
static void join(struct number *n, unsigned place, struct number more)
{
    if (place != MONTH_LONGEST)
        add(n, more);
    else if (more.over || (!n->over && more.value > n->value))
        *n = more;
}

void block_count(struct block *b, unsigned place, uint64_t more)
{
    join(&b->at[place], place, (struct number){ .value = more });
}

void block_join(struct block *to, const struct block *from)
{
    for (unsigned place = 0; place < MONTH_NUMBERS; place++)
        join(&to->at[place], place, from->at[place]);
}

static uint64_t divisor(uint64_t a, uint64_t b)
{
    while (b != 0) {
        uint64_t rest = a % b;

        a = b;
        b = rest;
    }
    return a;
}

/* Reduced; 0/1 where no hold was set. It follows the total, and there is none of holds without number. */
static void print_mean(struct number total, struct number holds)
{
    uint64_t by = divisor(total.value, holds.value);

    if (total.over || holds.over)
        puts("mean over");
    else if (holds.value == 0)
        puts("mean 0/1");
    else
        printf("mean %" PRIu64 "/%" PRIu64 "\n", total.value / by, holds.value / by);
}

void block_print(const struct block *b)
{
    for (const struct block_line *line = block_lines; line < block_lines + BLOCK_LINES; line++) {
        fputs(line->word, stdout);
        for (unsigned i = 0; i < line->count; i++) {
            struct number n = b->at[line->first + i];

            if (n.over)
                fputs(" over", stdout);
            else
                printf(" %" PRIu64, n.value);
        }
        putchar('\n');
    }
    print_mean(b->at[MONTH_TOTAL], b->at[MONTH_HOLDS]);
}
