/* month.c - month FILE..: what befell in each bench file and in all together, counted event by event. */
#include "month.h"

#include <string.h>

enum { REPORT_OCTETS = 8 };

/* A rule that discards, by the word of the reason. */
static void count_discard(struct block *b, const char *word)
{
    static const char *const rules[3] = { "no-class", "class-filter", "group-rule" };

    for (unsigned i = 0; i < 3; i++)
        if (strcmp(word, rules[i]) == 0)
            block_count(b, MONTH_DISCARDS + i, 1);
}

static void count_hold(struct block *b, uint32_t hold)
{
    block_count(b, MONTH_HOLDS, 1);
    block_count(b, MONTH_LONGEST, hold);
    block_count(b, MONTH_TOTAL, hold);
}

/* A hold is set at a station, by a frame: a rejected response, whose confirm has its status, or a
   disassociation. */
static void count_holds(struct block *b, const struct bench *run)
{
    const struct pt_answer *a = &run->answer;

    if (run->settings.role != PT_STATION || run->in.kind != FRAME)
        return;
    if ((a->notice == PT_ASSOC_CONFIRM || a->notice == PT_REASSOC_CONFIRM) && a->code != 0)
        count_hold(b, pt_comeback(run->in.body, run->in.length));
    if (a->notice == PT_DISASSOC_INDICATION)
        count_hold(b, PT_HOLD_USUAL);
}

/* The kinds that a clock step reports, each the second octet of its eight. */
static void count_reports(struct block *b, const struct bench *run)
{
    if (run->in.kind == CLOCK)
        for (unsigned at = 0; at < run->answer.written; at += REPORT_OCTETS)
            block_count(b, MONTH_TIMEOUTS - 1u + run->scratch[at + 1], 1);
}

/* One event with its answer. */
static void count_event(struct block *b, const struct bench *run, struct reason reason)
{
    const struct pt_answer *a = &run->answer;

    block_count(b, MONTH_EVENTS, 1);
    if (a->refusal != PT_DONE)
        block_count(b, MONTH_REFUSALS - 1u + a->refusal, 1);
    if (a->verdict == PT_DISCARD)
        count_discard(b, reason.word);
    if (a->ds != PT_DS_SILENT)
        block_count(b, a->ds == PT_DS_JOINED ? MONTH_JOINS : MONTH_LEAVES, 1);
    count_reports(b, run);
    count_holds(b, run);
}

/* All events of a file up to its end, or to where it stops. */
static enum got count_file(struct block *b, FILE *from)
{
    static struct bench run;
    enum got got;

    run = (struct bench){ .from = from };
    while ((got = bench_take(&run)) == GOT_RECORD) {
        struct reason reason = why_of(&run.settings, run.table, &run.in, SCRATCH);

        bench_answer(&run);
        count_event(b, &run, reason);
    }
    return got;
}

int month_files(int count, char **names)
{
    struct block all = { 0 };

    for (int i = 0; i < count; i++) {
        struct block one = { 0 };
        FILE *from = fopen(names[i], "rb");
        enum got got = from ? count_file(&one, from) : GOT_READ_ERROR;

        if (from)
            fclose(from);
        if (got == GOT_FAULT)
            fprintf(stderr, "independent: '%s' stops at a fault\n", names[i]);
        if (got == GOT_READ_ERROR)
            fprintf(stderr, "independent: cannot read '%s'\n", names[i]);
        printf("file %s\n", names[i]);
        block_print(&one);
        block_join(&all, &one);
    }
    puts("all");
    block_print(&all);
    return 0;
}
