/* main.c - the measured program.
 *   speed list                     the streams and their calls
 *   speed time STREAM              nanoseconds a call: library, independent
 *   speed count STREAM WHO ROUNDS  plays and prints nothing, for a counter: WHO is nothing, library, independent or run
 * Every run first compares the two on the stream; a difference ends it with status 1, wrong words with 2. */
#define _POSIX_C_SOURCE 200809L
#include "play.h"

#include <stdio.h>
#include <stdlib.h>
#include <string.h>
#include <time.h>

enum { PASSES = 25 };

static struct stream stream;

static double now(void)
{
    struct timespec t;

    clock_gettime(CLOCK_MONOTONIC, &t);
    return (double)t.tv_sec * 1e9 + (double)t.tv_nsec;
}

/* The fastest of many passes, the three players in turn, so that what else the machine does touches all alike. */
static void print_times(const char *name)
{
    double best[3] = { 1e18, 1e18, 1e18 };

    for (int pass = 0; pass < PASSES; pass++)
        for (int who = PLAY_NOTHING; who <= PLAY_INDEPENDENT; who++) {
            double start = now(), spent;

            play((enum player)who, &stream, 1);
            spent = now() - start;
            best[who] = spent < best[who] ? spent : best[who];
        }
    double calls = (double)stream.count;
    printf("%s %.1f %.1f\n", name, (best[PLAY_LIBRARY] - best[PLAY_NOTHING]) / calls,
           (best[PLAY_INDEPENDENT] - best[PLAY_NOTHING]) / calls);
}

static bool made(const char *name)
{
    if (!stream_make(name, &stream)) {
        fprintf(stderr, "speed: no stream '%s':", name);
        for (size_t i = 0; i < stream_total; i++)
            fprintf(stderr, " %s", stream_names[i]);
        fprintf(stderr, "\n");
        exit(2);
    }
    return play_compared(name, &stream);
}

static int list(void)
{
    for (size_t i = 0; i < stream_total; i++) {
        if (!made(stream_names[i]))
            return 1;
        printf("%s %zu\n", stream_names[i], stream.count);
    }
    return 0;
}

static int count(const char *name, const char *who, const char *rounds)
{
    static const char *const players[] = { "nothing", "library", "independent", "run" };

    if (!made(name))
        return 1;
    for (int i = 0; i < 4; i++)
        if (strcmp(who, players[i]) == 0) {
            play((enum player)i, &stream, (unsigned)strtoul(rounds, NULL, 10));
            return 0;
        }
    fprintf(stderr, "speed: no player '%s': nothing, library, independent or run\n", who);
    return 2;
}

int main(int argc, char **argv)
{
    if (argc == 2 && strcmp(argv[1], "list") == 0)
        return list();
    if (argc == 3 && strcmp(argv[1], "time") == 0) {
        if (!made(argv[2]))
            return 1;
        print_times(argv[2]);
        return 0;
    }
    if (argc == 5 && strcmp(argv[1], "count") == 0)
        return count(argv[2], argv[3], argv[4]);
    fprintf(stderr, "speed: list | time STREAM | count STREAM WHO ROUNDS\n");
    return 2;
}
