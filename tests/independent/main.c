/* main.c - the bench program of the independent core: records on standard input, lines on standard output.
 *
 * cc -std=c11 -O2 -Wall -Wextra -Wpedantic -Wconversion -Wshadow -Werror -o independent *.c
 *
 *   independent                           one line for each event
 *   independent -v                        trace lines after each event's line (README.md)
 *   independent why                       one line for each event: number, the rule that decided, value
 *   independent changes                   its line, octets and rule, and the places it changed (README.md)
 *   independent import SETTINGS CAPTURE   the bench records of a capture (import.c)
 *   independent month FILE..              counts of each bench file and of all together (month.c)
 *   independent total                     one block for those on standard input (total.c)
 *   independent check INPUT LOG           whether a log is what a bench input gets (check.c)
 *
 * Exit status 0, also after `stop`; 1 on a read or write error; 2 on other words.
 */
#include "changes.h"
#include "check.h"
#include "import.h"
#include "month.h"

#include <inttypes.h>
#include <signal.h>
#include <string.h>

enum { OUTPUT_BUFFER = 1 << 16, LONGEST_LINE = 80 };

/* Answers the event taken, and prints its line. */
static void tell_line(struct bench *b)
{
    char text[LONGEST_LINE];

    bench_answer(b);
    bench_line(text, sizeof text, b);
    fputs(text, stdout);
}

static void tell_trace(struct bench *b)
{
    tell_line(b);
    bench_trace(b);
}

/* The reason is that of the table as it was before the event. */
static void tell_why(struct bench *b)
{
    struct reason reason = why_of(&b->settings, b->table, &b->in, SCRATCH);

    bench_answer(b);
    printf("%" PRIu64 " %s %" PRIu32 "\n", b->events, reason.word, reason.value);
}

/* Here too the reason is that of the table before, which is kept to see what became other. */
static void tell_changes(struct bench *b)
{
    struct reason reason = why_of(&b->settings, b->table, &b->in, SCRATCH);
    struct pt_record before[PT_PLACES];

    memcpy(before, b->table, sizeof before);
    tell_line(b);
    changes_print(b, before, reason);
}

/* Takes events one after the other until the input ends, faults, or output fails. */
static int each_event(void (*tell)(struct bench *))
{
    static struct bench b;
    enum got got = GOT_END;

    b.from = stdin;
    while (!ferror(stdout) && (got = bench_take(&b)) == GOT_RECORD)
        tell(&b);
    if (got == GOT_FAULT)
        puts("stop");
    if (got == GOT_READ_ERROR)
        fputs("independent: cannot read standard input\n", stderr);
    return got == GOT_READ_ERROR ? 1 : 0;
}

/* What the words on the command line ask for. */
static int run_words(int words, char **word)
{
    if (words == 0)
        return each_event(tell_line);
    if (words == 1 && strcmp(word[0], "-v") == 0)
        return each_event(tell_trace);
    if (words == 1 && strcmp(word[0], "why") == 0)
        return each_event(tell_why);
    if (words == 1 && strcmp(word[0], "changes") == 0)
        return each_event(tell_changes);
    if (words == 3 && strcmp(word[0], "import") == 0)
        return import_capture(word[1], word[2]);
    if (words >= 2 && strcmp(word[0], "month") == 0)
        return month_files(words - 1, word + 1);
    if (words == 1 && strcmp(word[0], "total") == 0)
        return month_total();
    if (words == 3 && strcmp(word[0], "check") == 0)
        return check_log(word[1], word[2]);
    fputs("independent: unknown words; the head of main.c lists those it knows\n", stderr);
    return 2;
}

int main(int argc, char **argv)
{
    static char buffer[OUTPUT_BUFFER];
    int status;

#ifdef SIGPIPE
    signal(SIGPIPE, SIG_IGN); /* a closed pipe is a write error, not a silent end */
#endif
    setvbuf(stdout, buffer, _IOFBF, sizeof buffer);
    status = run_words(argc - 1, argv + 1);
    if (ferror(stdout) | fclose(stdout)) {
        fputs("independent: cannot write standard output\n", stderr);
        return 1;
    }
    return status;
}
