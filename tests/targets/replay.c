/* replay.c - the calls that tests/host/record.c wrote, in its form, made again: result, answer, table and out must be as recorded, the
   frame, the settings and the octets round everything lent as they were. Without a C library, so that it runs on every target. */
#include "replay.h"
#include "stack.h"

enum { HEAD = 32, GUARD = 32, ALIGNMENTS = 8, PAINT = 0xA5, CHUNK = 64, ANSWER_OCTETS = 24 };
enum { TABLE, SETTINGS, FRAME, OUT, ANSWER, SLICES };

/* Room for each slice, its guards and its alignment. */
static uint8_t tables[1600 + 2 * GUARD + ALIGNMENTS], settings[64 + 2 * GUARD + ALIGNMENTS], frames[5000 + 2 * GUARD + ALIGNMENTS],
    outs[4200 + 2 * GUARD + ALIGNMENTS], answers[256 + 2 * GUARD + ALIGNMENTS];
static const struct {
    uint8_t *octets;
    size_t room;
} rooms[SLICES] = { { tables, sizeof tables }, { settings, sizeof settings }, { frames, sizeof frames }, { outs, sizeof outs },
                    { answers, sizeof answers } };

static struct replayed call;
static uint8_t head[HEAD];
static uint32_t made;

/* The next octets of the record; false where it ends before. */
static int take(uint8_t *to, size_t octets)
{
    static uint8_t buffer[512];
    static size_t from, behind;

    for (size_t taken = 0; taken < octets; taken++) {
        if (from == behind) {
            behind = replay_read(buffer, sizeof buffer);
            from = 0;
        }
        if (behind == 0)
            return 0;
        to[taken] = buffer[from++];
    }
    return 1;
}

static uint64_t number_at(const uint8_t *p, unsigned octets)
{
    uint64_t n = 0;

    while (octets-- > 0)
        n = n << 8 | p[octets];
    return n;
}

static void paint(uint8_t *p, size_t count)
{
    while (count-- > 0)
        *p++ = PAINT;
}

/* Each slice gets guards, and an alignment by a number of the record. False where the record can't be one. */
static int lay(unsigned slice, size_t octets)
{
    uint8_t *at = rooms[slice].octets + GUARD + (head[18] * 5u + slice * 3u) % ALIGNMENTS;

    if (octets > rooms[slice].room - 2 * GUARD - ALIGNMENTS)
        return 0;
    paint(at - GUARD, octets + 2 * GUARD);
    call.slices[slice].at = at;
    call.slices[slice].octets = octets;
    return 1;
}

/* Whether these octets are as the record's next ones. */
static int as_recorded(const uint8_t *p, size_t count)
{
    uint8_t wanted[CHUNK];

    while (count > 0) {
        size_t part = count < CHUNK ? count : CHUNK;

        if (!take(wanted, part))
            return 0;
        for (size_t i = 0; i < part; i++)
            if (p[i] != wanted[i])
                return 0;
        p += part;
        count -= part;
    }
    return 1;
}

static int all_paint(const uint8_t *p, size_t count)
{
    while (count-- > 0)
        if (*p++ != PAINT)
            return 0;
    return 1;
}

/* A sum in which places count, for octets that must not change. */
static uint32_t sum_of(const uint8_t *p, size_t count)
{
    uint32_t sum = 1;

    while (count-- > 0)
        sum = sum * 31 + *p++;
    return sum;
}

static uint32_t sum_of_slice(unsigned slice)
{
    return sum_of(call.slices[slice].at, call.slices[slice].octets);
}

/* Reads a call; false where the record ends, or is none. */
static int next(void)
{
    static const uint8_t order[] = { SETTINGS, FRAME, TABLE };

    if (!take(head, HEAD))
        return 0;
    call.kind = head[0];
    call.primitive = head[1];
    call.number = (uint16_t)number_at(head + 2, 2);
    call.address = number_at(head + 20, 8);
    for (unsigned i = 0; i < SLICES; i++)
        if (!lay(i, (size_t)number_at(head + 6 + 2 * i, 2)))
            return 0;
    for (unsigned i = 0; i < sizeof order; i++)
        if (!take(call.slices[order[i]].at, call.slices[order[i]].octets))
            return 0;
    return 1;
}

/* The octets of answers that are written: those of one, none where there is no room for it, or as many as events were played. */
static size_t answered_octets(void)
{
    if (call.kind == CALL_RUN)
        return (size_t)ANSWER_OCTETS * head[4];
    return call.slices[ANSWER].octets < ANSWER_OCTETS ? 0 : ANSWER_OCTETS;
}

/* What is different after the call, or NULL. */
static const char *compared(uint64_t result, uint32_t table, uint32_t unchanged)
{
    size_t written = (size_t)number_at(head + 16, 2), answered = answered_octets();

    if (result != head[4])
        return "the result";
    if (head[5] ? !as_recorded(call.slices[TABLE].at, call.slices[TABLE].octets) : sum_of_slice(TABLE) != table)
        return "the table after the call";
    if (!as_recorded(call.slices[OUT].at, written) || !all_paint(call.slices[OUT].at + written, call.slices[OUT].octets - written))
        return "the octets of out";
    if (!as_recorded(call.slices[ANSWER].at, answered) ||
        !all_paint(call.slices[ANSWER].at + answered, call.slices[ANSWER].octets - answered))
        return "the octets of the answer";
    if (sum_of_slice(SETTINGS) + sum_of_slice(FRAME) != unchanged)
        return "the settings, the frame or the records";
    for (unsigned i = 0; i < SLICES; i++)
        if (!all_paint(call.slices[i].at - GUARD, GUARD) || !all_paint(call.slices[i].at + call.slices[i].octets, GUARD))
            return "octets outside of what was lent";
    return NULL;
}

static void say_number(uint32_t n)
{
    static const uint32_t powers[] = { 1000000, 100000, 10000, 1000, 100, 10, 1 };
    volatile uint32_t left = n; /* not every processor divides, and a compiler makes a division of this else */
    char text[8] = "0";
    unsigned length = 0;

    for (unsigned i = 0; i < 7; i++) {
        char digit = '0';

        for (; left >= powers[i]; left -= powers[i])
            digit++;
        if (digit > '0' || length > 0)
            text[length++] = digit;
    }
    replay_say(text);
}

int replay(void)
{
    while (next()) {
        uint32_t table = sum_of_slice(TABLE), unchanged = sum_of_slice(SETTINGS) + sum_of_slice(FRAME);
        const char *difference = compared(call_watched(&call), table, unchanged);

        made++;
        if (difference) {
            replay_say("DIFFERENCE in call ");
            say_number(made);
            replay_say(" of the record: ");
            replay_say(difference);
            replay_say("\n");
            return 1;
        }
    }
    say_number(made);
    replay_say(" calls alike, stack ");
    say_number((uint32_t)stack_deepest());
    replay_say("\n");
    return made == 0;
}
