/* corpus.c - bench records (mark 0B 03, kind, length, body) from a file: each event a call on one table, as the bench program does. */
#include "draw.h"
#include "runs.h"

#include <stdio.h>
#include <stdlib.h>
#include <string.h>

enum { HEADER = 5, SETTINGS = 0, PRIMITIVE = 1, FRAME = 2, CLOCK = 3, LINKS = 4, SCRATCH = 256 };

/* The bodies' lengths that the bench takes; a frame has any up to 4,096, links named as many as they count. */
static bool length_fits(unsigned kind, size_t length, const uint8_t *body)
{
    return (kind == SETTINGS && settings_length(length)) || (kind == PRIMITIVE && length == 9) ||
           (kind == FRAME && length <= PT_FRAME_MAX) || (kind == CLOCK && length == 2) ||
           (kind == LINKS && length >= PEER_NAMED_OCTETS_LEAST &&
            length == PEER_NAMED_OCTETS_LEAST + (size_t)PEER_ADDRESS_OCTETS * body[PEER_ADDRESS_OCTETS]);
}

static void take_event(struct call *call, unsigned kind, const uint8_t *body, size_t length)
{
    static const enum call_kind kinds[] = { [PRIMITIVE] = CALL_ASK, [FRAME] = CALL_RECEIVE, [CLOCK] = CALL_PASS, [LINKS] = CALL_LINKS };

    call->kind = kinds[kind];
    if (kind == PRIMITIVE) {
        call->primitive = body[0];
        call->address = pt_get48(body + 1);
        call->number = pt_get16(body + 7);
    } else if (kind == FRAME || kind == LINKS) {
        memcpy(call->frame, body, length);
        call->frame_octets = length;
    } else {
        call->number = pt_get16(body);
    }
}

/* The body is what a call is lent, octet by octet. */
static void take_settings(struct call *call, const uint8_t *body, size_t length)
{
    memcpy(&call->settings, body, length);
    call->settings_octets = length;
}

/* The same event with too short a buffer, slices of other lengths, or over a spoilt copy of the table. It leaves no trace, and the walk goes on. */
static void disturb(const struct call *call, struct chance *chance)
{
    static struct call other;

    other = *call;
    if (percent(chance, 20)) {
        draw_lengths(chance, &other);
    } else if (percent(chance, 50)) {
        other.out_octets = below(chance, call->kind == CALL_PASS ? PEER_PASS_OUT_LEAST : PEER_OUT_LEAST);
    } else {
        other.table_kind = TABLE_SPOILT;
        spoil_table(chance, &other.settings, other.table);
    }
    checked(&other, chance);
}

/* The octets of the whole record that begins here, of settings or of an event; 0 where it is none. */
static size_t record_at(const uint8_t *p, size_t count, bool settings)
{
    if (count < HEADER || p[0] != 0x0B || p[1] != 0x03 || (p[2] == SETTINGS) != settings)
        return 0;
    return count - HEADER < pt_get16(p + 3) || !length_fits(p[2], pt_get16(p + 3), p + HEADER) ? 0 : HEADER + (size_t)pt_get16(p + 3);
}

size_t event_at(const uint8_t *p, size_t count, struct call *call)
{
    size_t octets = record_at(p, count, false);

    if (octets > 0)
        take_event(call, p[2], p + HEADER, octets - HEADER);
    return octets;
}

/* Ends, as the bench does, at the first record at fault. */
static void play(const uint8_t *p, size_t count, struct call *call, struct chance *chance)
{
    size_t at = record_at(p, count, true), octets;

    if (at == 0)
        return;
    take_settings(call, p + HEADER, at - HEADER);
    run_batches(call, p + at, count - at, chance);
    while ((octets = event_at(p + at, count - at, call)) > 0) {
        call->index++;
        call->out_octets = SCRATCH;
        if (percent(chance, 12))
            disturb(call, chance);
        checked(call, chance);
        at += octets;
    }
}

bool run_corpus(const char *path, struct chance *chance)
{
    static struct call call;
    static uint8_t *octets;
    static size_t room = 16 * 1024 * 1024;
    FILE *file = fopen(path, "rb");
    size_t count;

    octets = octets ? octets : malloc(room);
    if (!file || !octets) {
        fprintf(stderr, "host: cannot read '%s'\n", path);
        return false;
    }
    count = fread(octets, 1, room, file);
    if (count == room || ferror(file)) {
        fprintf(stderr, "host: cannot read '%s': over 16 MiB, or a read error\n", path);
        return false;
    }
    fclose(file);
    memset(&call, 0, sizeof call);
    lend_usual(&call, chance);
    call.table_kind = TABLE_CORPUS;
    call.source = path;
    play(octets, count, &call, chance);
    return true;
}
