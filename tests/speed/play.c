/* play.c - the four loops that are measured: the same events over the library, by single calls and many in one, the independent functions, and
   nothing. */
#include "play.h"
#include "records.h"

#include <stdio.h>
#include <string.h>

enum { OUT = 256, RUNS = STREAM_EVENTS / RUN_EVENTS + 1 };

static peer_table lent, first_lent;
static struct pt_record table[PT_PLACES], first_table[PT_PLACES];
static uint8_t out[OUT], other_out[OUT];
static struct run runs[RUNS];
static size_t run_count;
static uint8_t run_out[RUN_EVENTS * OUT], answers[RUN_EVENTS * PEER_ANSWER_OCTETS];

static peer_answer by_library(const peer_settings *s, const struct event *e)
{
    if (e->kind == EVENT_FRAME)
        return peer_receive(&lent, s, e->frame, e->length, out, sizeof out);
    if (e->kind == EVENT_PRIMITIVE)
        return peer_ask(&lent, s, e->primitive, e->address, e->number, out, sizeof out);
    if (e->kind == EVENT_LINKS)
        return peer_links(&lent, s, e->address, e->links, e->length, out, sizeof out);
    return peer_pass(&lent, s, e->number, out, sizeof out);
}

static struct pt_answer by_independent(const struct pt_settings *s, const struct event *e, uint8_t *to)
{
    if (e->kind == EVENT_FRAME)
        return pt_receive(s, table, e->frame, e->length, to, OUT);
    if (e->kind == EVENT_PRIMITIVE)
        return pt_ask(s, table, e->primitive, e->address, e->number, to, OUT);
    if (e->kind == EVENT_LINKS)
        return pt_link(s, table, e->address, e->links, e->length, OUT);
    return pt_clock(s, table, e->number, to, OUT);
}

static bool one_compared(const struct stream *stream, const struct event *e)
{
    struct pt_settings s = settings_of(&stream->settings, PEER_SETTINGS_OCTETS);
    uint8_t wanted[PEER_TABLE_OCTETS], answer[PEER_ANSWER_OCTETS];
    peer_answer a = by_library(&stream->settings, e);
    struct pt_answer b = by_independent(&s, e, other_out);

    octets_of(table, wanted);
    octets_of_answer(&b, answer);
    return memcmp(&a, answer, sizeof a) == 0 && memcmp(&lent, wanted, sizeof lent) == 0 && memcmp(out, other_out, OUT) == 0;
}

static uint64_t by_run(const peer_settings *s, const struct run *r)
{
    return peer_run_octets((uint8_t *)&lent, sizeof lent, (const uint8_t *)s, sizeof *s, r->records, r->octets, run_out, sizeof run_out,
                           answers, sizeof answers);
}

/* The events again, many in one call, each answer beside that of its single call over a table of its own. */
static bool run_compared(const struct stream *stream)
{
    peer_table after = first_lent, single = first_lent;
    size_t at = stream->setup;

    run_count = runs_of(stream, runs, RUNS);
    for (size_t i = 0; i < run_count; i++) {
        lent = after;
        if (by_run(&stream->settings, &runs[i]) != runs[i].events)
            return false;
        after = lent;
        lent = single;
        for (size_t j = 0; j < runs[i].events; j++) {
            peer_answer a = by_library(&stream->settings, &stream->events[at++]);

            if (memcmp(&a, answers + j * PEER_ANSWER_OCTETS, sizeof a) != 0)
                return false;
        }
        single = lent;
    }
    return memcmp(&after, &single, sizeof after) == 0;
}

bool play_compared(const char *name, const struct stream *stream)
{
    memset(&lent, 0, sizeof lent);
    memset(table, 0, sizeof table);
    for (size_t i = 0; i < stream->setup + stream->count; i++) {
        if (i == stream->setup) {
            first_lent = lent;
            memcpy(first_table, table, sizeof table);
        }
        if (!one_compared(stream, &stream->events[i])) {
            printf("speed: stream %s, event %zu: library and independent program differ: tests/host/run shows more\n", name, i + 1);
            return false;
        }
    }
    if (!run_compared(stream)) {
        printf("speed: stream %s: many events in one call differ from the single calls\n", name);
        return false;
    }
    return true;
}

/* An answer must be there, though nobody looks at it. */
#define KEPT(answer) __asm__ volatile("" : : "r"(&(answer)) : "memory")

static __attribute__((noinline)) void round_of_library(const struct stream *stream)
{
    for (size_t i = 0; i < stream->count; i++) {
        peer_answer a = by_library(&stream->settings, &stream->events[stream->setup + i]);
        KEPT(a);
    }
}

static __attribute__((noinline)) void round_of_runs(const struct stream *stream)
{
    for (size_t i = 0; i < run_count; i++) {
        uint64_t played = by_run(&stream->settings, &runs[i]);
        KEPT(played);
    }
}

static __attribute__((noinline)) void round_of_independent(const struct stream *stream, const struct pt_settings *s)
{
    for (size_t i = 0; i < stream->count; i++) {
        struct pt_answer a = by_independent(s, &stream->events[stream->setup + i], out);
        KEPT(a);
    }
}

/* The loop alone: it looks at the kind, as the others do. */
static __attribute__((noinline)) void round_of_nothing(const struct stream *stream)
{
    for (size_t i = 0; i < stream->count; i++) {
        const struct event *e = &stream->events[stream->setup + i];

        if (e->kind == EVENT_FRAME)
            KEPT(e->frame);
        else if (e->kind == EVENT_PRIMITIVE)
            KEPT(e->address);
        else
            KEPT(e->number);
    }
}

/* Each round brings both tables back, whoever plays, so that this cost is the same for all. */
void play(enum player player, const struct stream *stream, unsigned rounds)
{
    struct pt_settings s = settings_of(&stream->settings, PEER_SETTINGS_OCTETS);

    for (unsigned round = 0; round < rounds; round++) {
        lent = first_lent;
        memcpy(table, first_table, sizeof table);
        if (player == PLAY_LIBRARY)
            round_of_library(stream);
        else if (player == PLAY_RUN)
            round_of_runs(stream);
        else if (player == PLAY_INDEPENDENT)
            round_of_independent(stream, &s);
        else
            round_of_nothing(stream);
    }
}
