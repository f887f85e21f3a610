/* record.c - a call as octets. A head of 32: kind (that behind the single calls is many events in one), primitive, number (2), result, whether the table
   changes, lengths (2 each) of table, settings, frame, links named or records, out and answers, octets written (2), an octet by which the replay draws
   alignments, zero, address (8), zeros. Then settings, frame, links or records, the table before, where it changes the table after, the octets written to
   out, and the answers that are written. Which calls are recorded is drawn by chances of its own, so that recording changes no call. */
#include "record.h"

#include <stdio.h>
#include <string.h>

/* Of many events in one call those are recorded that the replay has room for, on the smallest board too. */
enum { HEAD = 32, RECORDED_RECORDS = 5000, RECORDED_OUT = 4200, RECORDED_ANSWERS = 256 };

static FILE *file;
static struct chance chance;
static unsigned one_of;
static unsigned long recorded;

bool record_start(const char *path, unsigned one_in)
{
    file = fopen(path, "wb");
    one_of = one_in;
    chance = chance_of(one_in);
    return file != NULL;
}

static void put(const uint8_t *p, size_t count)
{
    if (count > 0)
        fwrite(p, 1, count, file);
}

/* How many octets of a frame, or of links named, the call is lent. */
static size_t lent_frame(const struct call *c)
{
    return c->kind == CALL_RECEIVE || c->kind == CALL_LINKS ? c->frame_octets : 0;
}

/* The lengths of frame, links or records, out and answers, and of what is written. */
static void put_head(const struct call *c, unsigned kind, size_t result, bool changed, const size_t lengths[4])
{
    uint8_t head[HEAD] = { (uint8_t)kind, c->primitive };

    pt_put16(head + 2, c->number);
    head[4] = (uint8_t)result;
    head[5] = changed;
    pt_put16(head + 6, (uint16_t)c->table_octets);
    pt_put16(head + 8, (uint16_t)c->settings_octets);
    for (int i = 0; i < 4; i++)
        pt_put16(head + 10 + 2 * i, (uint16_t)lengths[i]);
    head[18] = (uint8_t)below(&chance, 256);
    for (int i = 0; i < 8; i++)
        head[20 + i] = (uint8_t)(c->address >> (8 * i));
    put(head, HEAD);
}

void record(const struct call *c, const uint8_t *settings, const struct pt_answer *answer, const uint8_t *table, const uint8_t *out,
            const uint8_t *octets)
{
    bool changed = memcmp(c->table, table, c->table_octets) != 0;
    const size_t lengths[] = { lent_frame(c), c->out_octets, c->answer_octets, answer->written };

    if (!file || below(&chance, one_of) > 0)
        return;
    put_head(c, (unsigned)c->kind, answer->refusal, changed, lengths);
    put(settings, c->settings_octets);
    put(c->frame, lent_frame(c));
    put(c->table, c->table_octets);
    put(table, changed ? c->table_octets : 0);
    put(out, answer->written);
    put(octets, c->answer_octets < PEER_ANSWER_OCTETS ? 0 : PEER_ANSWER_OCTETS);
    recorded++;
}

void record_batch(const struct call *c, const struct batch *b, const uint8_t *settings, const uint8_t *table, const uint8_t *out,
                  const uint8_t *answers)
{
    bool changed = memcmp(c->table, table, c->table_octets) != 0;
    const size_t lengths[] = { b->octets, b->out_octets, b->answer_octets, b->written };

    if (!file || b->octets > RECORDED_RECORDS || b->out_octets > RECORDED_OUT || b->answer_octets > RECORDED_ANSWERS || below(&chance, one_of) > 0)
        return;
    put_head(c, CALL_KINDS, b->played, changed, lengths);
    put(settings, c->settings_octets);
    put(b->records, b->octets);
    put(c->table, c->table_octets);
    put(table, changed ? c->table_octets : 0);
    put(out, b->written);
    put(answers, PEER_ANSWER_OCTETS * b->played);
    recorded++;
}

bool record_end(void)
{
    bool all;

    if (!file)
        return true;
    all = !ferror(file) && fclose(file) == 0;
    printf("%lu of the calls recorded\n", recorded);
    return all;
}
