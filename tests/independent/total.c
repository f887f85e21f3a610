/* total.c - total: blocks of the month on standard input, added up to one. */
#include "month.h"

#include <string.h>

enum { LONGEST_WORD = 20 }; /* the digits of 64 bits */

/* Reads up to a blank or the line's end, which is given; a word that is too long is cut, and so no word. */
static int read_word(char *word)
{
    size_t length = 0;
    int c;

    while ((c = getchar()) != EOF && c != ' ' && c != '\n')
        if (length <= LONGEST_WORD)
            word[length++] = (char)c;
    word[length] = '\0';
    return c;
}

static bool number_of(const char *word, struct number *n)
{
    *n = (struct number){ 0 };
    if (strcmp(word, "over") == 0) {
        n->over = true;
        return true;
    }
    for (const char *p = word; *p; p++) {
        uint64_t digit = (uint64_t)(*p - '0');

        if (*p < '0' || *p > '9' || n->value > (UINT64_MAX - digit) / 10)
            return false;
        n->value = n->value * 10 + digit;
    }
    return word[0] != '\0';
}

/* The numbers of a line, behind its word; a blank before each, the line's end behind the last. */
static bool add_numbers(struct block *b, const struct block_line *line, int end)
{
    struct block more = { 0 };
    char word[LONGEST_WORD + 2];

    for (unsigned i = 0; i < line->count; i++) {
        if (end != ' ')
            return false;
        end = read_word(word);
        if (!number_of(word, &more.at[line->first + i]))
            return false;
    }
    block_join(b, &more);
    return end != ' ';
}

/* One line: passed over where it is a heading or a mean, which is worked out anew. */
static bool add_line(struct block *b, const char *word, int end)
{
    if (strcmp(word, "file") == 0 || strcmp(word, "all") == 0 || strcmp(word, "mean") == 0) {
        while (end != '\n' && end != EOF)
            end = getchar();
        return true;
    }
    for (size_t i = 0; i < BLOCK_LINES; i++)
        if (strcmp(word, block_lines[i].word) == 0)
            return add_numbers(b, &block_lines[i], end);
    return false;
}

int month_total(void)
{
    struct block all = { 0 };
    char word[LONGEST_WORD + 2];
    unsigned long line = 0;
    int end;

    while ((end = read_word(word)) != EOF || word[0] != '\0') {
        line++;
        if (!add_line(&all, word, end)) {
            fprintf(stderr, "independent: line %lu is of no block\n", line);
            return 1;
        }
    }
    if (ferror(stdin)) {
        fputs("independent: cannot read standard input\n", stderr);
        return 1;
    }
    block_print(&all);
    return 0;
}
