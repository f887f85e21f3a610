/* month.h - the month in exact numbers: a block of counts over events and their answers, and how blocks add up. */
#ifndef MONTH_H
#define MONTH_H

#include "why.h"

/* The places of a block; those of one line follow one another. */
enum {
    MONTH_EVENTS = 0, MONTH_REFUSALS = 1, MONTH_DISCARDS = 10, MONTH_JOINS = 13, MONTH_LEAVES = 14,
    MONTH_TIMEOUTS = 15, MONTH_HOLDS = 20, MONTH_LONGEST = 21, MONTH_TOTAL = 22, MONTH_NUMBERS = 23
};

/* A number of 64 bits, or one that would pass them. */
struct number {
    uint64_t value;
    bool over;
};

struct block {
    struct number at[MONTH_NUMBERS];
};

/* The lines of a block: a word, and the places of its numbers. The mean, last, is of the others. */
struct block_line {
    const char *word;
    unsigned first, count;
};
enum { BLOCK_LINES = 9 };
extern const struct block_line block_lines[BLOCK_LINES];

/* Adds a block to another, place by place (block.c). */
void block_count(struct block *b, unsigned place, uint64_t more);
void block_join(struct block *to, const struct block *from);
void block_print(const struct block *b);

/* The blocks of bench files and of all together (month.c); one block for those on standard input (total.c). Each
   gives the exit status. */
int month_files(int count, char **names);
int month_total(void);

#endif
