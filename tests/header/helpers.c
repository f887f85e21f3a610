/* helpers.c - the small functions and the names of the header, tried one by one; C99 and C++11. Links a library; the calls as a host
   writes them are made once each. Ends with 1 and a line for each fault. */
#include "peer_table.h"
#include "peer_table_names.h"
#include "many.h"

#include <stdio.h>
#include <string.h>

#if PEER_TABLE_VERSION != 8
#error "this test is of version 8"
#endif

static int faults;

static void want(int holds, const char *what)
{
    if (!holds) {
        printf("header: wrong: %s\n", what);
        faults++;
    }
}

static void addresses(void)
{
    static const uint8_t octets[PEER_ADDRESS_OCTETS] = { 2, 0x11, 0x22, 0x33, 0x44, 0xff };
    uint8_t back[PEER_ADDRESS_OCTETS + 2];

    memset(back, 7, sizeof back);
    want(peer_address_read(octets) == 0xff4433221102u, "six octets as a number");
    peer_address_write(0xff4433221102u, back + 1);
    want(memcmp(back + 1, octets, sizeof octets) == 0, "a number as six octets");
    want(back[0] == 7 && back[PEER_ADDRESS_OCTETS + 1] == 7, "an address is six octets and no more");
}

static void records(void)
{
    peer_table table;

    memset(&table, 0, sizeof table);
    table.at[0].address = 4;
    table.at[0].state = PEER_STATE_2;
    table.at[31].address = 8;
    table.at[31].state = PEER_STATE_4;
    want(peer_record_at(&table, 0) == &table.at[0] && peer_record_at(&table, 31) == &table.at[31], "a record by its place");
    want(!peer_record_at(&table, 1) && !peer_record_at(&table, 32) && !peer_record_at(&table, 4000000000u), "no record by a place");
    want(peer_record_of(&table, 4) == &table.at[0] && peer_record_of(&table, 8) == &table.at[31], "a record by its address");
    want(!peer_record_of(&table, 6) && !peer_record_of(&table, 0), "no record by an address");
    want(peer_aid(0) == 1 && peer_aid(31) == 32, "the AID of a place");
    table.at[0].query = PEER_QUERY_RUNNING;
    table.at[31].query = PEER_QUERY_DUE;
    want(peer_link_at(&table.at[0], 0) == 0 && peer_link_at(&table.at[0], 4) == 0, "no link of a record");
    peer_address_write(0x0a0000000002u, table.at[31].links[0]);
    peer_address_write(0x0c0000000002u, table.at[31].links[3]);
    want(peer_link_at(&table.at[31], 0) == 0x0a0000000002u && peer_link_at(&table.at[31], 3) == 0x0c0000000002u &&
         peer_link_at(&table.at[31], 1) == 0 && peer_link_at(&table.at[31], 4000000000u) == 0, "a link by its number");
    want(peer_device(&table, 0x0a0000000002u) == 8 && peer_device(&table, 0x0c0000000002u) == 8 && peer_device(&table, 8) == 8 &&
         peer_device(&table, 6) == 6 && peer_device(&table, 0) == 0, "the device of an address");
    want(peer_query_is_due(&table, 8) && !peer_query_is_due(&table, 4) && !peer_query_is_due(&table, 6), "a query that is due");
}

static void comebacks(void)
{
    static const uint8_t element[PEER_COMEBACK_OCTETS] = { 56, 5, 3, 4, 3, 2, 1 };
    uint8_t frame[40];

    memset(frame, 9, sizeof frame);
    want(peer_comeback_append(frame, 30, 36, 5) == 0 && peer_comeback_append(frame, 30, 6, 5) == 0 &&
         peer_comeback_append(frame, 30, 0, 5) == 0 && frame[30] == 9, "a comeback without room");
    want(peer_comeback_append(frame, 30, 37, 0x01020304) == 37, "a comeback with just the room");
    want(memcmp(frame + 30, element, sizeof element) == 0 && frame[29] == 9 && frame[37] == 9, "a comeback's octets");
}

static void timeouts(void)
{
    static const uint8_t out[16] = { 0, 1, 2, 0, 0, 0, 0, 1, 31, 3, 2, 0, 0, 0, 0, 2 };
    peer_timeout t = peer_timeout_at(out, 16, 1);

    want(t.place == 31 && t.kind == PEER_KIND_REASSOCIATION && t.address == 0x020000000002u, "the second timeout");
    want(peer_timeout_at(out, 16, 0).kind == PEER_KIND_AUTHENTICATION, "the first timeout");
    want(peer_timeout_at(out, 8, 1).kind == 0 && peer_timeout_at(out, 0, 0).kind == 0, "no timeout");
}

/* Every number that a list has a name for has one of its own, the next has none. */
static void named(const char *(*name)(unsigned), unsigned count, const char *what)
{
    for (unsigned i = 0; i < count; i++)
        for (unsigned j = 0; j <= i; j++)
            want((strcmp(name(i), name(j)) == 0) == (i == j) && strcmp(name(i), "unknown") != 0, what);
    want(strcmp(name(count), "unknown") == 0 && strcmp(name(255), "unknown") == 0 && strcmp(name(4294967295u), "unknown") == 0, what);
}

static void names(void)
{
    named(peer_refusal_name, 10, "the names of refusals");
    named(peer_why_name, 14, "the words of reasons");
    named(peer_run_kind_name, 5, "the names of kinds of records");
    named(peer_verdict_name, 3, "the names of verdicts");
    named(peer_notice_name, 11, "the names of notices");
    named(peer_ds_name, 3, "the words to the distribution system");
    named(peer_state_name, 5, "the names of states");
    named(peer_exchange_name, 10, "the names of exchanges");
    named(peer_query_name, 4, "the names of queries");
    named(peer_kind_name, 6, "the names of kinds");
    named(peer_primitive_name, 12, "the names of primitives");
    want(strcmp(peer_code_name(PEER_AUTHENTICATION_CONFIRM), "status") == 0 && strcmp(peer_code_name(11), "unknown") == 0, "a code's name");
}

/* A station asks, its request is heard by an AP, and its time runs out. */
static void calls(void)
{
    static const peer_settings ap = { PEER_AP, { 2, 0, 0, 0, 0, 0x0a }, 0, 100, 100, PEER_EDITION_1, 0, 201, 1000, { 0 } };
    static const peer_settings station = { PEER_STATION, { 2, 0, 0, 0, 1, 1 }, 0, 100, 100, PEER_EDITION_2, 1, 201, 1000, { 0 } };
    peer_table at_ap, at_station;
    uint8_t out[PEER_PASS_OUT_LEAST], answer[PEER_OUT_LEAST];
    peer_answer a;

    memset(&at_ap, 0, sizeof at_ap);
    memset(&at_station, 0, sizeof at_station);
    a = peer_ask(&at_station, &station, PEER_AUTHENTICATE_REQUEST, peer_address_read(ap.own), 0, out, sizeof out);
    want(a.refusal == PEER_DONE && a.written == 30 && peer_sender(out) == peer_address_read(station.own), "peer_ask");
    a = peer_receive(&at_ap, &ap, out, a.written, answer, sizeof answer);
    want(a.verdict == PEER_ADMIT && a.notice == PEER_AUTHENTICATION_INDICATION && a.state == PEER_STATE_1, "peer_receive");
    want(at_ap.at[0].exchange == PEER_ASKED_AUTHENTICATION && peer_record_of(&at_ap, peer_sender(out)) == &at_ap.at[0], "its record");
    a = peer_pass(&at_station, &station, 100, out, sizeof out);
    want(a.written == PEER_TIMEOUT_OCTETS && peer_timeout_at(out, a.written, 0).address == peer_address_read(ap.own), "peer_pass");
    a = peer_pass(&at_station, &station, 100, out, PEER_PASS_OUT_LEAST - 1);
    want(a.refusal == PEER_REFUSED_BUFFER && a.written == 0, "a refusal");
}

/* A device with two links asks over the second: the reply to a bad algorithm goes there, what our side asks to the first. */
static void links(void)
{
    static const peer_settings ap = { PEER_AP, { 2, 0, 0, 0, 0, 0x0a }, 0, 100, 100, PEER_EDITION_1, 0, 201, 1000, { 0 } };
    const uint64_t device = 0x010000000002u, named[5] = { 0x020000000002u, 0x030000000002u, 0x040000000002u, 0x050000000002u, 2 };
    uint64_t over[1] = { 0x1000000000002u };
    uint8_t frame[30] = { 0xb0 }, out[PEER_PASS_OUT_LEAST];
    peer_table table;
    peer_answer a;

    memset(&table, 0, sizeof table);
    peer_address_write(peer_address_read(ap.own), frame + 4);
    peer_address_write(named[1], frame + 10);
    want(peer_links(&table, &ap, device, named, 0, out, sizeof out).refusal == PEER_DONE && !peer_record_of(&table, device), "no links, no record");
    want(peer_links(&table, &ap, device, named, 5, out, sizeof out).refusal == PEER_REFUSED_INPUT &&
         peer_links(&table, &ap, device, named, 4000000000u, out, sizeof out).refusal == PEER_REFUSED_INPUT, "more than four links");
    want(peer_links(&table, &ap, device, over, 1, out, sizeof out).refusal == PEER_REFUSED_INPUT &&
         peer_links(&table, &ap, over[0], named, 1, out, sizeof out).refusal == PEER_REFUSED_INPUT, "an address over six octets");
    a = peer_links(&table, &ap, device, named, 4, out, sizeof out);
    want(a.refusal == PEER_DONE && a.state == PEER_STATE_1 && a.written == 0 && peer_link_at(&table.at[0], 3) == named[3], "four links");
    a = peer_links(&table, &ap, device, named, 2, out, sizeof out);
    want(a.refusal == PEER_DONE && peer_link_at(&table.at[0], 1) == named[1] && peer_link_at(&table.at[0], 2) == 0, "two in their place");
    frame[24] = 3;
    frame[26] = 1;
    a = peer_receive(&table, &ap, frame, sizeof frame, out, sizeof out);
    want(a.written == 30 && peer_address_read(out + 4) == named[1], "a reply goes to the link");
    frame[24] = 0;
    a = peer_receive(&table, &ap, frame, sizeof frame, out, sizeof out);
    want(a.notice == PEER_AUTHENTICATION_INDICATION && table.at[0].exchange == PEER_ASKED_AUTHENTICATION, "the device asks");
    a = peer_ask(&table, &ap, PEER_AUTHENTICATE_RESPONSE, named[1], PEER_STATUS_SUCCESS, out, sizeof out);
    want(a.refusal == PEER_REFUSED_INPUT, "a link in a primitive");
    a = peer_ask(&table, &ap, PEER_AUTHENTICATE_RESPONSE, peer_device(&table, peer_sender(frame)), PEER_STATUS_SUCCESS, out, sizeof out);
    want(a.state == PEER_STATE_2 && peer_address_read(out + 4) == named[0], "an answer goes to the first link");
    want(peer_links(&table, &ap, device, named, 1, out, sizeof out).refusal == PEER_REFUSED_NO_MATCH, "links in State 1 alone");
}

/* Two ask each other at once, without an AP: the request heard takes the place of ours, and the frame carries the network's address. */
static void ad_hoc(void)
{
    static const peer_settings one = { PEER_AD_HOC, { 2, 0, 0, 0, 1, 1 }, 0, 100, 100, PEER_EDITION_1, 0, 201, 1000, { 2, 0, 0, 0, 0, 9 } };
    static const peer_settings other = { PEER_AD_HOC, { 2, 0, 0, 0, 2, 1 }, 0, 100, 100, PEER_EDITION_1, 0, 201, 1000, { 2, 0, 0, 0, 0, 9 } };
    const uint64_t first = peer_address_read(one.own), second = peer_address_read(other.own);
    peer_table at_one, at_other;
    uint8_t out[PEER_PASS_OUT_LEAST], answer[PEER_OUT_LEAST];
    peer_answer a;

    memset(&at_one, 0, sizeof at_one);
    memset(&at_other, 0, sizeof at_other);
    peer_ask(&at_one, &one, PEER_AUTHENTICATE_REQUEST, second, 0, out, sizeof out);
    a = peer_ask(&at_other, &other, PEER_AUTHENTICATE_REQUEST, first, 0, out, sizeof out);
    want(a.refusal == PEER_DONE && memcmp(out + 16, one.network, PEER_ADDRESS_OCTETS) == 0, "the network's address is Address 3");
    a = peer_receive(&at_one, &one, out, a.written, answer, sizeof answer);
    want(a.notice == PEER_AUTHENTICATION_INDICATION && at_one.at[0].exchange == PEER_ASKED_AUTHENTICATION && at_one.at[0].left == 0,
         "both ask at once");
    a = peer_ask(&at_one, &one, PEER_AUTHENTICATE_RESPONSE, second, PEER_STATUS_SUCCESS, out, sizeof out);
    want(a.refusal == PEER_DONE && a.state == PEER_STATE_2, "authenticated without an AP");
    a = peer_ask(&at_one, &one, PEER_ASSOCIATE_REQUEST, second, 0, out, sizeof out);
    want(a.refusal == PEER_REFUSED_ROLE, "nobody associates in an ad hoc network");
}

static int is(peer_why why, unsigned reason, uint64_t value)
{
    return why.reason == reason && why.value == value;
}

/* Why each call comes to what it does, at the limits of each value; nothing but the value is written. */
static void whys(void)
{
    static const peer_settings station = { PEER_STATION, { 2, 0, 0, 0, 1, 1 }, 0, 100, 100, PEER_EDITION_1, 0, 201, 1000, { 0 } };
    static const peer_settings ap = { PEER_AP, { 2, 0, 0, 0, 0, 0x0a }, 0, 100, 100, PEER_EDITION_1, 0, 201, 1000, { 0 } };
    const uint64_t held = 0x010000000002u, device = 0x020000000002u, link[1] = { 0x030000000002u };
    static uint8_t frame[4097];
    uint8_t value[PEER_VALUE_OCTETS + 1];
    peer_table table, before;

    memset(&table, 0, sizeof table);
    table.at[0].address = held;
    table.at[0].state = PEER_STATE_2;
    table.at[0].hold = 4294967295u;
    before = table;
    want(is(peer_why_ask(&table, &station, PEER_ASSOCIATE_REQUEST, held, 0, PEER_OUT_LEAST), PEER_REFUSED_HELD, 4294967295u), "the longest hold");
    want(is(peer_why_ask(&table, &station, PEER_SET_PROTECTION, held, 0, PEER_OUT_LEAST), PEER_REFUSED_NO_MATCH, 2), "the peer's state");
    want(is(peer_why_ask(&table, &station, PEER_SET_PROTECTION, device, 0, PEER_OUT_LEAST), PEER_REFUSED_NO_MATCH, 1), "a stranger's state");
    want(is(peer_why_ask(&table, &station, PEER_AUTHENTICATE_REQUEST, held, 0, PEER_OUT_LEAST), PEER_WHY_NONE, 0), "something is done");
    want(is(peer_why_ask(&table, &station, PEER_AUTHENTICATE_REQUEST, held, 0, PEER_OUT_LEAST - 1), PEER_REFUSED_BUFFER, 0), "a buffer too short");
    want(is(peer_why_ask(&table, &ap, PEER_AUTHENTICATE_REQUEST, device, 0, PEER_OUT_LEAST), PEER_REFUSED_TABLE, 0), "an AP has no holds");
    want(is(peer_why_pass(&table, &station, 0, PEER_PASS_OUT_LEAST), PEER_REFUSED_INPUT, 0), "a clock step of 0");
    want(is(peer_why_pass(&table, &station, 65535, PEER_PASS_OUT_LEAST), PEER_WHY_NONE, 0), "a clock step");
    want(is(peer_why_links(&table, &station, device, link, 1, PEER_OUT_LEAST), PEER_REFUSED_ROLE, 0), "links at a station");
    want(memcmp(&table, &before, sizeof table) == 0, "nothing is changed");

    frame[0] = 0x08;
    peer_address_write(peer_address_read(station.own), frame + 4);
    peer_address_write(held, frame + 10);
    want(is(peer_why_receive(&table, &station, frame, 4097, PEER_OUT_LEAST), PEER_REFUSED_INPUT, 4097), "a frame of 4,097 octets");
    want(is(peer_why_receive(&table, &station, frame, 4096, PEER_OUT_LEAST), PEER_WHY_CLASS_FILTER, 2), "one of 4,096, kept out in State 2");
    peer_address_write(device, frame + 10);
    want(is(peer_why_receive(&table, &station, frame, 24, PEER_OUT_LEAST), PEER_WHY_CLASS_FILTER, 1), "kept out, without a record");
    frame[0] = 0xb0;
    frame[4] = 0xff;
    want(is(peer_why_receive(&table, &station, frame, 30, PEER_OUT_LEAST), PEER_WHY_GROUP_RULE, 0), "an authentication to a group address");
    frame[0] = 0xb1;
    want(is(peer_why_receive(&table, &station, frame, 30, PEER_OUT_LEAST), PEER_WHY_NO_CLASS, 0), "another version");
    frame[0] = 0x80;
    want(is(peer_why_receive(&table, &station, frame, 30, PEER_OUT_LEAST), PEER_WHY_NOTHING_TO_DO, 0), "a beacon");
    memset(value, 7, sizeof value);
    want(peer_why_receive_octets((const uint8_t *)&table, sizeof table, (const uint8_t *)&station, sizeof station, frame, 9, PEER_OUT_LEAST,
                                 value, PEER_VALUE_OCTETS - 1) == PEER_REFUSED_INPUT && value[0] == 7, "no room for the value");
    want(peer_why_receive_octets((const uint8_t *)&table, sizeof table, (const uint8_t *)&station, sizeof station, frame, 9, PEER_OUT_LEAST,
                                 value, sizeof value) == PEER_REFUSED_INPUT && value[0] == 9 && value[7] == 0 && value[8] == 7, "room for it");
}

/* Settings from before there were editions, queries or ad hoc networks: refused as a struct, taken as the octets that they were. */
static void older_settings(void)
{
    peer_settings older = { PEER_STATION, { 2, 0, 0, 0, 1, 1 }, 0, 100, 100, 0, 0, 0, 0, { 0 } };
    peer_table table;
    uint8_t out[PEER_PASS_OUT_LEAST];
    peer_answer a;

    memset(&table, 0, sizeof table);
    want(peer_pass(&table, &older, 1, out, sizeof out).refusal == PEER_REFUSED_TABLE, "no edition");
    want(peer_pass_octets((uint8_t *)&table, sizeof table, (const uint8_t *)&older, PEER_SETTINGS_OCTETS_LEAST, 1, out, sizeof out,
                          (uint8_t *)&a, sizeof a) == PEER_DONE, "settings of 12 octets");
    older.edition = PEER_EDITION_2;
    want(peer_pass(&table, &older, 1, out, sizeof out).refusal == PEER_REFUSED_TABLE, "no times of a query");
    want(peer_pass_octets((uint8_t *)&table, sizeof table, (const uint8_t *)&older, PEER_SETTINGS_OCTETS_EDITION, 1, out, sizeof out,
                          (uint8_t *)&a, sizeof a) == PEER_DONE, "settings of 14 octets");
    older.query_retry = older.query_maximum = 1;
    want(peer_pass(&table, &older, 1, out, sizeof out).refusal == PEER_DONE, "a station without a network's address");
    want(peer_pass_octets((uint8_t *)&table, sizeof table, (const uint8_t *)&older, PEER_SETTINGS_OCTETS_QUERY, 1, out, sizeof out,
                          (uint8_t *)&a, sizeof a) == PEER_DONE, "settings of 18 octets");
    older.role = PEER_AD_HOC;
    want(peer_pass(&table, &older, 1, out, sizeof out).refusal == PEER_REFUSED_TABLE, "an ad hoc network without an address");
    older.network[0] = 2;
    want(peer_pass(&table, &older, 1, out, sizeof out).refusal == PEER_DONE, "an ad hoc network with an address");
    want(peer_pass_octets((uint8_t *)&table, sizeof table, (const uint8_t *)&older, PEER_SETTINGS_OCTETS_QUERY, 1, out, sizeof out,
                          (uint8_t *)&a, sizeof a) == PEER_REFUSED_TABLE, "settings of 18 octets in an ad hoc network");
}

int main(void)
{
    addresses();
    records();
    comebacks();
    timeouts();
    names();
    calls();
    links();
    ad_hoc();
    whys();
    older_settings();
    return faults + many_faults() > 0;
}
