/* many.c - events put behind one another and played by peer_run: the same answers, octets and table as the single calls; and what it does where
   room is short or a record is none. C99 and C++11. */
#include "many.h"
#include "peer_table.h"

#include <stdio.h>
#include <string.h>

enum { RECORDS = 512, OUT = 1024, EVENTS = 5 };

static const peer_settings ap = { PEER_AP, { 2, 0, 0, 0, 0, 0x0a }, 0, 100, 100, PEER_EDITION_1, 0, 201, 1000, { 0 } };
static const uint64_t peer = 0x010000000002u, device = 0x020000000002u, named[5] = { 0x030000000002u, 0x040000000002u, 2, 4, 6 };

/* What the events below come to, one by one. */
struct singly {
    peer_table table;
    peer_answer answers[EVENTS];
    uint8_t out[OUT], frame[30];
    size_t written;
};

static int faults;

static void want(int holds, const char *what)
{
    if (!holds) {
        printf("header: wrong: %s\n", what);
        faults++;
    }
}

static void keep(struct singly *s, int at, peer_answer answer)
{
    s->answers[at] = answer;
    s->written += answer.written;
}

/* A peer is authenticated, sends data too early, a device's links are named, and time passes. */
static void play_singly(struct singly *s)
{
    memset(s, 0, sizeof *s);
    s->frame[0] = 0xb0;
    s->frame[26] = 1;
    peer_address_write(peer_address_read(ap.own), s->frame + 4);
    peer_address_write(peer, s->frame + 10);
    keep(s, 0, peer_receive(&s->table, &ap, s->frame, 30, s->out, OUT));
    keep(s, 1, peer_ask(&s->table, &ap, PEER_AUTHENTICATE_RESPONSE, peer, PEER_STATUS_SUCCESS, s->out + s->written, OUT - s->written));
    s->frame[0] = 0x08;
    keep(s, 2, peer_receive(&s->table, &ap, s->frame, 30, s->out + s->written, OUT - s->written));
    keep(s, 3, peer_links(&s->table, &ap, device, named, 2, s->out + s->written, OUT - s->written));
    keep(s, 4, peer_pass(&s->table, &ap, 7, s->out + s->written, OUT - s->written));
}

static size_t gathered(uint8_t *records, size_t room, uint8_t *frame)
{
    size_t octets;

    frame[0] = 0xb0;
    octets = peer_run_receive(records, 0, room, frame, 30);
    octets = peer_run_ask(records, octets, room, PEER_AUTHENTICATE_RESPONSE, peer, PEER_STATUS_SUCCESS);
    frame[0] = 0x08;
    octets = peer_run_receive(records, octets, room, frame, 30);
    octets = peer_run_links(records, octets, room, device, named, 2);
    return peer_run_pass(records, octets, room, 7);
}

static void in_one_call(struct singly *s, const uint8_t *records, size_t octets)
{
    peer_table table;
    peer_answer answers[EVENTS + 1];
    uint8_t out[OUT];

    memset(&table, 0, sizeof table);
    memset(out, 0, sizeof out);
    memset(answers, 0x5a, sizeof answers);
    want(peer_run(&table, &ap, records, octets, out, OUT, answers, EVENTS + 1) == EVENTS, "all events in one call");
    want(memcmp(answers, s->answers, sizeof s->answers) == 0 && answers[EVENTS].reserved[6] == 0x5a, "their answers, and no more");
    want(memcmp(&table, &s->table, sizeof table) == 0 && memcmp(out, s->out, OUT) == 0, "their table, and what they wrote");
    want(peer_run_written(answers, 0) == 0 && peer_run_written(answers, 2) == 30 && peer_run_written(answers, EVENTS) == s->written, "where it begins");
    want(peer_run_taken(records, 0) == 0 && peer_run_taken(records, 1) == 35 && peer_run_taken(records, EVENTS) == octets, "where a record begins");
}

/* One answer at a time, and with little room: it stops, and goes on from there to the same end. */
static void in_parts(struct singly *s, const uint8_t *records, size_t octets)
{
    peer_table table;
    peer_answer answer[2];
    uint8_t out[PEER_PASS_OUT_LEAST];
    size_t at = 0, i;

    memset(&table, 0, sizeof table);
    want(peer_run(&table, &ap, records, octets, out, sizeof out, answer, 0) == 0, "no room for an answer");
    want(peer_run(&table, &ap, records, octets, out, PEER_OUT_LEAST - 1, answer, 2) == 0, "no room in out");
    for (i = 0; i < EVENTS; i++) {
        want(peer_run(&table, &ap, records + at, octets - at, out, sizeof out, answer, 1) == 1, "one event at a time");
        want(memcmp(answer, s->answers + i, sizeof *answer) == 0, "its answer");
        at += peer_run_taken(records + at, 1);
    }
    want(at == octets && memcmp(&table, &s->table, sizeof table) == 0, "the table, one at a time");
    want(peer_run(&table, &ap, records, octets, out, 66, answer, 2) == 1 + (s->answers[0].written == 0), "out for one frame and a bit");
}

static void no_records(const uint8_t *records, size_t octets)
{
    static const uint8_t settings[17] = { 0x0b, 3, 0, 12, 0, 1, 2, 0, 0, 0, 0, 10, 0, 100, 0, 100, 0 };
    peer_settings wrong = ap;
    peer_table table;
    peer_answer answers[EVENTS];
    uint8_t out[OUT], other[RECORDS];

    memset(&table, 0, sizeof table);
    want(peer_run(&table, &ap, settings, sizeof settings, out, OUT, answers, EVENTS) == 0, "a settings record is no event");
    want(peer_run(&table, &ap, records, 34, out, OUT, answers, EVENTS) == 0 && peer_run(&table, &ap, records, 0, out, OUT, answers, EVENTS) == 0,
         "a record that is cut, and none");
    want(peer_run(&table, &ap, records, 36, out, OUT, answers, EVENTS) == 1, "a record and a bit");
    memcpy(other, records, octets);
    other[35 + 1] = 4;
    memset(&table, 0, sizeof table);
    want(peer_run(&table, &ap, other, octets, out, OUT, answers, EVENTS) == 1 && answers[0].notice == PEER_AUTHENTICATION_INDICATION,
         "another mark behind the first");
    wrong.edition = 0;
    want(peer_run(&table, &wrong, records, octets, out, OUT, answers, EVENTS) == EVENTS && answers[0].refusal == PEER_REFUSED_TABLE &&
         answers[EVENTS - 1].refusal == PEER_REFUSED_TABLE && answers[1].written == 0, "settings out of range");
}

static void no_room(uint8_t *records, const uint8_t *frame)
{
    static const uint8_t long_frame[PEER_FRAME_LONGEST + 1] = { 0 };
    static uint8_t much[PEER_FRAME_LONGEST + PEER_RUN_HEAD_OCTETS];

    memset(records, 9, RECORDS);
    want(peer_run_receive(records, 0, 34, frame, 30) == 0 && peer_run_ask(records, 4, 17, 1, peer, 0) == 0 && peer_run_pass(records, 9, 15, 1) == 0 &&
         peer_run_links(records, 0, 17, device, named, 1) == 0 && peer_run_pass(records, 16, 15, 1) == 0 && peer_run_pass(records, 0, 4, 1) == 0 &&
         records[0] == 9 && records[9] == 9, "a record without room");
    want(peer_run_links(records, 0, RECORDS, device, named, 5) == 0 && records[0] == 9, "five links in a record");
    want(peer_run_receive(records, 0, 35, frame, 30) == 35 && records[35] == 9 && peer_run_ask(records, 4, 18, 1, peer, 0) == 18 &&
         peer_run_pass(records, 9, 16, 0x0102) == 16 && records[14] == 2 && records[15] == 1, "with just the room");
    want(peer_run_ask(records, 0, RECORDS, 1, (uint64_t)1 << 48, 0) == 14 && records[6] == 0 && records[11] == 0, "an address over six octets");
    want(peer_run_receive(much, 0, sizeof much, long_frame, sizeof long_frame) == 0 &&
         peer_run_receive(much, 0, sizeof much, long_frame, PEER_FRAME_LONGEST) == sizeof much && much[4] == 0x10, "the longest frame");
}

int many_faults(void)
{
    static struct singly s;
    static uint8_t records[RECORDS];
    size_t octets;

    play_singly(&s);
    octets = gathered(records, RECORDS, s.frame);
    want(octets == 35 + 14 + 35 + 24 + 7, "the octets of five records");
    in_one_call(&s, records, octets);
    in_parts(&s, records, octets);
    no_records(records, octets);
    no_room(records, s.frame);
    return faults;
}
