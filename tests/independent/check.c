/* check.c - check INPUT LOG: whether another's lines are those that the events of a bench input get.
 *
 * The log is read octet by octet beside each line of our own, so it may be of any size and any contents.
 * One line comes of it: `right`, `differs EVENT FIELD`, `short EVENT` or `long EVENT`.
 */
#include "check.h"

#include <inttypes.h>
#include <string.h>

enum { LONGEST_LINE = 80, FORM = 8 };

/* How a line of the log stands to ours: alike, not there, or other from some field on. */
enum stands { ALIKE, MISSING, OTHER };

/* The first octet that is other says which piece is: the one it stands in, or the next one where the log's
   line ends behind a whole piece, which is then missing. Behind our last piece only the form is left. */
static unsigned other_piece(unsigned piece, char ours, int theirs)
{
    bool ends = theirs == '\n' || theirs == EOF;

    if (ours == '\n')
        return ends || theirs == ' ' ? FORM : piece;
    return ours == ' ' && ends ? piece + 1 : piece;
}

/* The next line of the log beside ours; where it is other, the number of the field. */
static enum stands compare_line(FILE *log, const char *line, unsigned *field)
{
    unsigned piece = 0;

    for (const char *p = line; *p; p++) {
        int c = getc(log);

        if (c == EOF && p == line)
            return MISSING;
        if (c != (unsigned char)*p) {
            *field = other_piece(piece, *p, c);
            return OTHER;
        }
        piece += c == ' ';
    }
    return ALIKE;
}

/* The line of the next event, `stop` where the input is at fault; false behind the last one. */
static bool next_line(struct bench *b, enum got *got, char *line)
{
    if (*got != GOT_RECORD)
        return false;
    *got = bench_take(b);
    if (*got == GOT_RECORD) {
        bench_answer(b);
        bench_line(line, LONGEST_LINE, b);
    } else {
        strcpy(line, "stop\n");
    }
    return *got == GOT_RECORD || *got == GOT_FAULT;
}

/* Line by line; false where a file can't be read. */
static bool check_lines(struct bench *b, FILE *log)
{
    static const char *const fields[] = { "number", "refusal", "verdict", "notice", "code", "written",
                                          "ds", "state", "form" };
    char line[LONGEST_LINE];
    enum got got = GOT_RECORD;
    enum stands stands = ALIKE;
    uint64_t lines = 0; /* that both have */
    unsigned field = 0;
    bool more;

    while ((more = next_line(b, &got, line)) && (stands = compare_line(log, line, &field)) == ALIKE)
        lines++;
    if (!more)
        stands = getc(log) == EOF ? ALIKE : OTHER;
    if (got == GOT_READ_ERROR || ferror(log))
        return false;
    if (more && stands == OTHER)
        printf("differs %" PRIu64 " %s\n", lines + 1, fields[field]);
    else if (more)
        printf("short %" PRIu64 "\n", lines);
    else if (stands == OTHER)
        printf("long %" PRIu64 "\n", lines);
    else
        puts("right");
    return true;
}

/* 0 where the one line was printed, whichever; else 1. */
int check_log(const char *input, const char *log)
{
    static struct bench b;
    FILE *theirs = fopen(log, "rb");
    bool done;

    b.from = fopen(input, "rb");
    done = b.from && theirs && check_lines(&b, theirs);
    if (b.from)
        fclose(b.from);
    if (theirs)
        fclose(theirs);
    if (!done)
        fprintf(stderr, "independent: cannot read '%s' or '%s'\n", input, log);
    return done ? 0 : 1;
}
