/* main.c - the test host: host SEED CALLS [--record OUT ONE_IN] FILE.. plays the bench records of each file, then sweeps, then walks and
   single shots until CALLS calls were made; about one call in ONE_IN is recorded in OUT. Ends with 1 at the first difference, or where
   some answer was never seen; with 2 where it is called wrongly. */
#include "lent.h"
#include "record.h"
#include "runs.h"
#include "tally.h"

#include <errno.h>
#include <stdio.h>
#include <stdlib.h>
#include <string.h>

enum { WALK_CALLS = 1000 };

static bool number(const char *text, unsigned long *value)
{
    char *end;

    errno = 0;
    *value = strtoul(text, &end, 10);
    return *text >= '0' && *text <= '9' && *end == '\0' && errno == 0;
}

/* The words --record OUT ONE_IN; gives how many words they are, 0 where they are not there, -1 where they are at fault. */
static int recorded(int argc, char **argv)
{
    unsigned long one_in;

    if (argc < 4 || strcmp(argv[3], "--record") != 0)
        return 0;
    if (argc < 6 || !number(argv[5], &one_in) || one_in == 0 || one_in > 1000) {
        fprintf(stderr, "host: --record wants a file and a number of 1 to 1000\n");
        return -1;
    }
    if (record_start(argv[4], (unsigned)one_in))
        return 3;
    fprintf(stderr, "host: cannot write '%s'\n", argv[4]);
    return -1;
}

static void run_all(unsigned long calls, struct chance *chance)
{
    unsigned long shots = 0, walks = 0;

    run_sweeps(chance);
    while (tally_calls() < calls) {
        run_walk(walks++, WALK_CALLS, chance);
        for (int i = 0; i < WALK_CALLS; i++)
            run_shot(shots++, chance);
    }
    printf("%lu walks of %d calls, %lu single shots\n", walks, WALK_CALLS, shots);
}

int main(int argc, char **argv)
{
    unsigned long seed, calls;
    int words;

    if (argc < 3 || !number(argv[1], &seed) || !number(argv[2], &calls)) {
        fprintf(stderr, "host: SEED CALLS [--record OUT ONE_IN] FILE..: two numbers, then files of bench records\n");
        return 2;
    }
    if ((words = recorded(argc, argv)) < 0)
        return 2;
    if (!lent_start()) {
        fprintf(stderr, "host: the system gives no memory\n");
        return 2;
    }
    struct chance chance = chance_of(seed);
    call_watch();
    for (int i = 3 + words; i < argc; i++)
        if (!run_corpus(argv[i], &chance))
            return 2;
    printf("%lu calls from %d files of bench records\n", tally_calls(), argc - 3 - words);
    run_all(calls, &chance);
    return tally_print() && batches_print() && record_end() ? 0 : 1;
}
