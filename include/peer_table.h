/* peer_table.h - the peer table of IEEE 802.11 clause 11.3 for C and C++: libpeer_table.a.
 *
 * Who is authenticated, who is associated, who must wait. The host owns everything: it lends a table, a frame and a buffer to each call,
 * sends what the call wrote and heeds the answer. The library has no state of its own, no heap and no locks; it is reentrant, and calls
 * on different tables may run at the same time.
 *
 *     static peer_table table;                                       // all zero: the empty table
 *     static const peer_settings ap = { PEER_AP, { 2, 0, 0, 0, 0, 0x0a }, 0, 100, 100, PEER_EDITION_1, 0,
 *                                       PEER_QUERY_RETRY_USUAL, PEER_QUERY_MAXIMUM_USUAL, { 0 } };
 *     uint8_t out[PEER_OUT_LEAST];
 *     peer_answer a = peer_receive(&table, &ap, frame, frame_octets, out, sizeof out);
 *     if (a.written > 0)
 *         radio_send(out, a.written);                                // a.verdict says whether the frame itself goes up
 *     if (a.notice == PEER_AUTHENTICATION_INDICATION) {
 *         a = peer_ask(&table, &ap, PEER_AUTHENTICATE_RESPONSE, peer_device(&table, peer_sender(frame)), PEER_STATUS_SUCCESS, out, sizeof out);
 *         if (a.refusal == PEER_DONE)
 *             radio_send(out, a.written);
 *     }
 *
 * What each call is lent
 *   table    read and written. Any contents are allowed: what is not well formed is refusal 2. A copy of its octets may be stored and
 *            brought back, on any processor.
 *   settings read only. What is out of range is refusal 2, an edition or a query's time that was left 0 too, whatever the role, and in an ad
 *            hoc network the network's address. A host from before there were editions, queries or ad hoc networks may go on with 12, 14 or 18
 *            octets in the calls of peer_table_octets.h.
 *   frame    read only, without FCS, any contents, any length; over 4,096 octets is refusal 3.
 *   links    read only: as many as the count says, at most four.
 *   out      written from its first octet; only the first `written` octets change. At least 37 octets, 256 for peer_pass; more is fine.
 * No pointer may be null, also with length 0. Each points to as many octets as its length says; nothing beyond is read or written. They
 * must not overlap. While a call runs, nothing else may write to what it was lent.
 *
 * What comes back
 *   A refusal (1 to 9) has every other field 0 and leaves all octets of table and out as they were.
 *   Everything else is done at once: the frame in `out` is to be sent, the notice is to be passed on, the table is the new one.
 *
 * Many events in one call
 *   peer_run plays events that were gathered, as a radio hands over a queue of frames: the same as the single calls one after the other, with one check of table and
 *   settings for all of them. peer_run_receive, peer_run_ask, peer_run_pass and peer_run_links put an event behind others; answers[i] is the i-th one's, and what it wrote
 *   begins at peer_run_written(answers, i). Where it gives fewer than there are, room was short: send what was written, and go on from peer_run_taken.
 *
 *     size_t octets = peer_run_receive(records, 0, sizeof records, frame, frame_octets);
 *     octets = peer_run_receive(records, octets, sizeof records, next_frame, next_octets);
 *     size_t played = peer_run(&table, &ap, records, octets, out, sizeof out, answers, 64);
 *
 * Why a frame was dropped
 *   peer_why_receive, peer_why_ask, peer_why_links and peer_why_pass name the first rule that decides such a call, and a value beside it; they change
 *   nothing. They are for installers, not for the air: each looks at the whole table once more. Ask before the call itself is made.
 *
 * Devices with several links
 *   A peer of an AP may be a device that joins once and speaks over one to four links, each with an address of its own: one record, one state,
 *   one AID. Before it joins, in State 1, peer_links names them. From then on a frame from any of them, or from the device's own address, is
 *   the device's, and what is written at once in reply goes to the address it came from. What our side asks names the device, never a link
 *   (refusal 3), and is sent to its first link, whichever link was heard last. Timeouts and reports name the device. A record with links is
 *   freed by no clock step: name none (count 0) and the next step may. No address is of two devices, nor twice of one.
 *
 * What the host must do itself
 *   - Answer each indication, by PEER_.._RESPONSE with any status, and report whether the peer acknowledged the answer to a
 *     (re)association (PEER_TRANSMIT_REPORT). The places of an AP and in an ad hoc network do not age: a peer that only asked keeps its place
 *     until it is answered, an authenticated one until it is deauthenticated, one with links until they are taken away. A place is freed by the
 *     next clock step.
 *   - Count time: the library has no clock. peer_pass is told how many TU passed; the timeouts of what was sent, a station's holds and an
 *     AP's queries run by it alone. Steps add up: a whole sleep may be told in one call, or in several with the same sum. The table is the
 *     same, and the reports are together the same but for a query's retries: of several in one call one is told, none where it times out there.
 *   - Ask again: nothing is repeated. After a timeout or a rejection the host decides whether and when it asks once more. In an ad hoc network
 *     a request that is heard takes the place of one that we sent: no answer to ours and no timeout is told then. Answer it; each end that
 *     answers with success counts the other as authenticated.
 *   - Drop duplicates: a frame that is received twice counts twice.
 *   - Complete the frames: out has no FCS, duration and sequence control are 0 for the radio to fill in, and elements are the host's to
 *     append (peer_comeback_append), but for the comeback time while a query runs.
 *   - Send the queries, at an AP with edition 2 and protection. There a (re)association request in the name of a peer in State 4 is answered
 *     with status 30 and a comeback time, both in the frame written; our side is told nothing, the peer stays as it is, and an SA Query runs.
 *     Its request is due then (peer_query_is_due), and again at each PEER_KIND_QUERY_DUE of peer_pass: ask PEER_SA_QUERY_REQUEST and send what
 *     is written. A response ends the query. After PEER_KIND_QUERY_TIMED_OUT the peer's next request passes, and is indicated as any other.
 *   - Protect the frames: keys are not the library's, and the Protected bit is looked at for Public Action frames alone. The host protects
 *     the farewells and queries that it sends to a peer in State 4 where protection is in use, and hands on none from it that is not.
 *   - Find the device: an indication does not say whose it is. peer_device gives it by the frame's sender, and is what an answer names.
 *   - Tell true from false for the rest: who sent a frame is taken from its Address 2. With edition 1, without protection, or in an ad hoc
 *     network a forged farewell or request is obeyed.
 *
 * What it runs on
 *   x86-64 (Linux; kernels: no red zone, general registers only), 64-bit and 32-bit Arm (Linux), Cortex-M4 (unaligned access not
 *   trapped), Cortex-M0+, RISC-V of 32 and 64 bits, WebAssembly; README.md says how each is tested. On x86-64 and on Arm under
 *   Linux the code uses vector registers, which code that is called from an interrupt has to save; the archive for kernels uses none.
 *   From the linker it wants at most memcpy and memset, by the names of the target's C library, and on Arm of 32 bits without an
 *   instruction for it division, on Cortex-M0+ a product of 64 bits too, which each compiler for them brings along (__aeabi_uidiv,
 *   __aeabi_lmul). Stack: PEER_STACK_OCTETS. */
#ifndef PEER_TABLE_H
#define PEER_TABLE_H

#include "peer_table_octets.h"

#include <stddef.h>

#if !(defined(__BYTE_ORDER__) && __BYTE_ORDER__ == __ORDER_LITTLE_ENDIAN__) && !(defined(__LITTLE_ENDIAN__) && __LITTLE_ENDIAN__)
#error "peer_table.h: its structs are the library's octets on a little-endian host only: include peer_table_octets.h, and keep octets"
#endif

/* The structs are the octets of the calls: nothing is converted. An address is six octets as in a frame, or a number, the first octet
   lowest, so that a group address is odd; 2^48 and above is never valid. */
typedef struct {
    uint8_t role;                         /* PEER_AP, PEER_STATION or PEER_AD_HOC */
    uint8_t own[PEER_ADDRESS_OCTETS];     /* our address: individual, not 0 */
    uint8_t rsna;                         /* 1 where RSNA is required, else 0 */
    uint16_t authentication_timeout;      /* 1 to 65,535 TU: how long one who asks waits for the answer */
    uint16_t association_timeout;         /* the same, for reassociation too */
    uint8_t edition;                      /* PEER_EDITION_1 or PEER_EDITION_2 */
    uint8_t protection;                   /* 1 where management frames are protected, else 0; edition 1 does not look at it */
    uint16_t query_retry;                 /* 1 to 65,535 TU: an SA Query that is not answered is due again each time they have passed */
    uint16_t query_maximum;               /* 1 to 65,535 TU from its start: then it has timed out */
    uint8_t network[PEER_ADDRESS_OCTETS]; /* the ad hoc network's address: individual, not 0; at an AP and a station not looked at */
} peer_settings;

/* What a call answers. */
typedef struct {
    uint64_t current; /* the current AP that a reassociation indication carries, unchecked; else 0 */
    uint16_t code;    /* the notice's status or reason */
    uint16_t written; /* octets written to out: a frame to be sent, or timeouts */
    uint8_t refusal;
    uint8_t verdict;
    uint8_t notice;
    uint8_t ds;
    uint8_t state;    /* the peer's after the call; 0 if refused, without a record, or without a peer */
    uint8_t reserved[7];
} peer_answer;

/* One place of the table. A free place is all zero. */
typedef struct {
    uint64_t address; /* the peer's; the device's where it has links */
    uint32_t hold;    /* TU until this AP may be asked to join again; 0 at an AP; in an ad hoc network nothing sets it */
    uint16_t left;    /* TU until the exchange sent times out; else 0 */
    uint8_t state;
    uint8_t exchange;
    uint16_t identifier; /* of the last SA Query that was begun; 0 before the first, and behind 65,535 */
    uint16_t query_left; /* TU until the query times out; 0 where none runs */
    uint32_t query;      /* PEER_NO_QUERY to PEER_QUERY_TIMED_OUT */
    uint8_t links[PEER_LINKS][PEER_ADDRESS_OCTETS]; /* of a device at an AP, from the first on; zero behind the last */
} peer_record;

typedef struct {
    peer_record at[PEER_PLACES];
} peer_table;

/* Why a call comes to what it does. */
typedef struct {
    uint64_t value;  /* the frame's length, the peer's state or the hold left, by the reason; else 0 */
    unsigned reason; /* a refusal, 1 to 9, or PEER_WHY_NONE to PEER_WHY_NOTHING_TO_DO */
} peer_why;

/* A time that is over: an exchange's, or one of a query. */
typedef struct {
    uint64_t address;
    uint8_t place;
    uint8_t kind;
} peer_timeout;

/* A layout that does not hold is an array of size -1. */
typedef char peer_settings_are_octets[sizeof(peer_settings) == PEER_SETTINGS_OCTETS && offsetof(peer_settings, own) == 1 &&
    offsetof(peer_settings, rsna) == 7 && offsetof(peer_settings, authentication_timeout) == 8 &&
    offsetof(peer_settings, association_timeout) == 10 && offsetof(peer_settings, edition) == 12 &&
    offsetof(peer_settings, protection) == 13 && offsetof(peer_settings, query_retry) == 14 &&
    offsetof(peer_settings, query_maximum) == 16 && offsetof(peer_settings, network) == 18 ? 1 : -1];
typedef char peer_answer_is_octets[sizeof(peer_answer) == PEER_ANSWER_OCTETS && offsetof(peer_answer, code) == 8 &&
    offsetof(peer_answer, written) == 10 && offsetof(peer_answer, refusal) == 12 && offsetof(peer_answer, verdict) == 13 &&
    offsetof(peer_answer, notice) == 14 && offsetof(peer_answer, ds) == 15 && offsetof(peer_answer, state) == 16 ? 1 : -1];
typedef char peer_table_is_octets[sizeof(peer_record) == PEER_RECORD_OCTETS && offsetof(peer_record, hold) == 8 &&
    offsetof(peer_record, left) == 12 && offsetof(peer_record, state) == 14 && offsetof(peer_record, exchange) == 15 &&
    offsetof(peer_record, identifier) == 16 && offsetof(peer_record, query_left) == 18 && offsetof(peer_record, query) == 20 &&
    offsetof(peer_record, links) == 24 && sizeof(peer_table) == PEER_TABLE_OCTETS ? 1 : -1];

/* Six octets as a number. */
static inline uint64_t peer_address_read(const uint8_t *octets)
{
    uint64_t address = 0;
    int i;

    for (i = PEER_ADDRESS_OCTETS - 1; i >= 0; i--)
        address = address << 8 | octets[i];
    return address;
}

/* A number as six octets. */
static inline void peer_address_write(uint64_t address, uint8_t *octets)
{
    int i;

    for (i = 0; i < PEER_ADDRESS_OCTETS; i++)
        octets[i] = (uint8_t)(address >> (8 * i));
}

/* A frame was received. Its sender is the peer, or a link of it; CTS, ACK and frames without a class name none. */
static inline peer_answer peer_receive(peer_table *table, const peer_settings *settings, const uint8_t *frame, size_t frame_octets,
                                       uint8_t *out, size_t out_octets)
{
    peer_answer answer;

    peer_receive_octets((uint8_t *)table, sizeof *table, (const uint8_t *)settings, sizeof *settings, frame, frame_octets,
                        out, out_octets, (uint8_t *)&answer, sizeof answer);
    return answer;
}

/* Our own side asks for something: one of the eleven primitives, for the peer of this address, which is no link's. */
static inline peer_answer peer_ask(peer_table *table, const peer_settings *settings, uint8_t primitive, uint64_t address,
                                   uint16_t code, uint8_t *out, size_t out_octets)
{
    peer_answer answer;

    peer_ask_octets((uint8_t *)table, sizeof *table, (const uint8_t *)settings, sizeof *settings, primitive, address, code,
                    out, out_octets, (uint8_t *)&answer, sizeof answer);
    return answer;
}

/* A device and its links as octets, in room for PEER_NAMED_OCTETS_MOST; gives how many. What six octets do not hold is as invalid as the zeros that
   stand for it; a count over four is refused as five is. */
static inline size_t peer_named_write(uint64_t device, const uint64_t *links, size_t count, uint8_t *named)
{
    size_t given = count <= PEER_LINKS ? count : (size_t)PEER_LINKS, i;

    for (i = 0; i < PEER_NAMED_OCTETS_MOST; i++)
        named[i] = 0;
    if (device >> 48 == 0)
        peer_address_write(device, named);
    named[PEER_ADDRESS_OCTETS] = (uint8_t)(count == given ? count : PEER_LINKS + 1);
    for (i = 0; i < given; i++)
        if (links[i] >> 48 == 0)
            peer_address_write(links[i], named + PEER_NAMED_OCTETS_LEAST + PEER_ADDRESS_OCTETS * i);
    return PEER_NAMED_OCTETS_LEAST + PEER_ADDRESS_OCTETS * given;
}

/* Our own side names the links of a device that is in State 1 or has no record, at an AP: so many addresses, in place of those before. Count 0
   takes them away and makes no record. Nothing is written, state and exchange stay. */
static inline peer_answer peer_links(peer_table *table, const peer_settings *settings, uint64_t device, const uint64_t *links, size_t count,
                                     uint8_t *out, size_t out_octets)
{
    uint8_t named[PEER_NAMED_OCTETS_MOST];
    size_t octets = peer_named_write(device, links, count, named);
    peer_answer answer;

    peer_links_octets((uint8_t *)table, sizeof *table, (const uint8_t *)settings, sizeof *settings, named, octets,
                      out, out_octets, (uint8_t *)&answer, sizeof answer);
    return answer;
}

/* Time passed: 1 to 65,535 TU. Each exchange that timed out, each query that is due again or timed out stands in out, in rising place, one
   a record: peer_timeout_at reads one, there are written / PEER_TIMEOUT_OCTETS of them. Records with nothing left to keep, links too, are
   freed here and only here. */
static inline peer_answer peer_pass(peer_table *table, const peer_settings *settings, uint16_t step, uint8_t *out, size_t out_octets)
{
    peer_answer answer;

    peer_pass_octets((uint8_t *)table, sizeof *table, (const uint8_t *)settings, sizeof *settings, step,
                     out, out_octets, (uint8_t *)&answer, sizeof answer);
    return answer;
}

/* The head of a record behind `octets` others; gives where its body begins, 0 where the room is too short for both. */
static inline size_t peer_run_head(uint8_t *records, size_t octets, size_t room, uint8_t kind, size_t body)
{
    if (octets > room || room - octets < PEER_RUN_HEAD_OCTETS || room - octets - PEER_RUN_HEAD_OCTETS < body)
        return 0;
    records[octets] = PEER_RUN_MARK_FIRST;
    records[octets + 1] = PEER_RUN_MARK_SECOND;
    records[octets + 2] = kind;
    records[octets + 3] = (uint8_t)(body & 0xff);
    records[octets + 4] = (uint8_t)(body >> 8);
    return octets + PEER_RUN_HEAD_OCTETS;
}

/* Puts a frame that was received behind `octets` of records; gives how many there are then. 0, and nothing is written, where the room is too short or the
   frame is over 4,096 octets. So do the next three, with what the single calls take. */
static inline size_t peer_run_receive(uint8_t *records, size_t octets, size_t room, const uint8_t *frame, size_t frame_octets)
{
    size_t at = frame_octets > PEER_FRAME_LONGEST ? 0 : peer_run_head(records, octets, room, PEER_RUN_RECEIVE, frame_octets), i;

    for (i = 0; at > 0 && i < frame_octets; i++)
        records[at + i] = frame[i];
    return at > 0 ? at + frame_octets : 0;
}

/* What six octets do not hold is as invalid as the zeros that stand for it. */
static inline size_t peer_run_ask(uint8_t *records, size_t octets, size_t room, uint8_t primitive, uint64_t address, uint16_t code)
{
    size_t at = peer_run_head(records, octets, room, PEER_RUN_ASK, PEER_ADDRESS_OCTETS + 3);

    if (at == 0)
        return 0;
    records[at] = primitive;
    peer_address_write(address >> 48 == 0 ? address : 0, records + at + 1);
    records[at + 7] = (uint8_t)(code & 0xff);
    records[at + 8] = (uint8_t)(code >> 8);
    return at + PEER_ADDRESS_OCTETS + 3;
}

static inline size_t peer_run_pass(uint8_t *records, size_t octets, size_t room, uint16_t step)
{
    size_t at = peer_run_head(records, octets, room, PEER_RUN_PASS, 2);

    if (at == 0)
        return 0;
    records[at] = (uint8_t)(step & 0xff);
    records[at + 1] = (uint8_t)(step >> 8);
    return at + 2;
}

/* Also 0 where links are over four: no record says so. */
static inline size_t peer_run_links(uint8_t *records, size_t octets, size_t room, uint64_t device, const uint64_t *links, size_t count)
{
    uint8_t named[PEER_NAMED_OCTETS_MOST];
    size_t body = count > PEER_LINKS ? 0 : peer_named_write(device, links, count, named);
    size_t at = body == 0 ? 0 : peer_run_head(records, octets, room, PEER_RUN_LINKS, body), i;

    for (i = 0; at > 0 && i < body; i++)
        records[at + i] = named[i];
    return at > 0 ? at + body : 0;
}

/* Plays the events of records, as many as there is room for; gives how many. Each has its answer, in their order. */
static inline size_t peer_run(peer_table *table, const peer_settings *settings, const uint8_t *records, size_t record_octets,
                              uint8_t *out, size_t out_octets, peer_answer *answers, size_t answer_count)
{
    return (size_t)peer_run_octets((uint8_t *)table, sizeof *table, (const uint8_t *)settings, sizeof *settings, records, record_octets,
                                   out, out_octets, (uint8_t *)answers, (uint64_t)answer_count * sizeof *answers);
}

/* How many octets of out the first events wrote: there the next one's begin. */
static inline size_t peer_run_written(const peer_answer *answers, size_t count)
{
    size_t written = 0, i;

    for (i = 0; i < count; i++)
        written += answers[i].written;
    return written;
}

/* How many octets the records of the first events take, of those that peer_run has played: there the next one begins. */
static inline size_t peer_run_taken(const uint8_t *records, size_t count)
{
    size_t taken = 0;

    for (; count > 0; count--)
        taken += PEER_RUN_HEAD_OCTETS + ((size_t)records[taken + 3] | (size_t)records[taken + 4] << 8);
    return taken;
}

/* Why peer_receive would come to what it does, lent a buffer of so many octets. */
static inline peer_why peer_why_receive(const peer_table *table, const peer_settings *settings, const uint8_t *frame, size_t frame_octets,
                                        size_t room)
{
    peer_why why;

    why.reason = (unsigned)peer_why_receive_octets((const uint8_t *)table, sizeof *table, (const uint8_t *)settings, sizeof *settings,
                                                   frame, frame_octets, room, (uint8_t *)&why.value, sizeof why.value);
    return why;
}

/* The same of peer_ask. */
static inline peer_why peer_why_ask(const peer_table *table, const peer_settings *settings, uint8_t primitive, uint64_t address,
                                    uint16_t code, size_t room)
{
    peer_why why;

    why.reason = (unsigned)peer_why_ask_octets((const uint8_t *)table, sizeof *table, (const uint8_t *)settings, sizeof *settings,
                                               primitive, address, code, room, (uint8_t *)&why.value, sizeof why.value);
    return why;
}

/* The same of peer_links. */
static inline peer_why peer_why_links(const peer_table *table, const peer_settings *settings, uint64_t device, const uint64_t *links,
                                      size_t count, size_t room)
{
    uint8_t named[PEER_NAMED_OCTETS_MOST];
    size_t octets = peer_named_write(device, links, count, named);
    peer_why why;

    why.reason = (unsigned)peer_why_links_octets((const uint8_t *)table, sizeof *table, (const uint8_t *)settings, sizeof *settings,
                                                 named, octets, room, (uint8_t *)&why.value, sizeof why.value);
    return why;
}

/* The same of peer_pass. */
static inline peer_why peer_why_pass(const peer_table *table, const peer_settings *settings, uint16_t step, size_t room)
{
    peer_why why;

    why.reason = (unsigned)peer_why_pass_octets((const uint8_t *)table, sizeof *table, (const uint8_t *)settings, sizeof *settings,
                                                step, room, (uint8_t *)&why.value, sizeof why.value);
    return why;
}

/* The sender of a frame that was not refused and that has one: Address 2, from octet 10 on. */
static inline uint64_t peer_sender(const uint8_t *frame)
{
    return peer_address_read(frame + 10);
}

/* The record at a place, 0 to 31; NULL where the place is free, or no place. */
static inline const peer_record *peer_record_at(const peer_table *table, unsigned place)
{
    return place < PEER_PLACES && table->at[place].state != PEER_NO_STATE ? &table->at[place] : NULL;
}

/* The record of a peer, by the device's address where it has links; NULL where it has none, and so counts as State 1. */
static inline const peer_record *peer_record_of(const peer_table *table, uint64_t address)
{
    unsigned place;

    for (place = 0; place < PEER_PLACES; place++)
        if (table->at[place].address == address)
            return peer_record_at(table, place);
    return NULL;
}

/* A link of a record, by its number from 0; 0 where it has no such link. */
static inline uint64_t peer_link_at(const peer_record *record, unsigned number)
{
    return number < PEER_LINKS ? peer_address_read(record->links[number]) : 0;
}

/* The peer whose frames come from an address: the device where it is a link's, else the address itself. This is what an answer names. */
static inline uint64_t peer_device(const peer_table *table, uint64_t sender)
{
    unsigned place, number;

    for (place = 0; place < PEER_PLACES && sender != 0; place++)
        for (number = 0; number < PEER_LINKS; number++)
            if (peer_link_at(&table->at[place], number) == sender)
                return table->at[place].address;
    return sender;
}

/* Whether the request of an SA Query to this peer is to be sent: PEER_SA_QUERY_REQUEST. */
static inline int peer_query_is_due(const peer_table *table, uint64_t address)
{
    const peer_record *record = peer_record_of(table, address);

    return record != NULL && record->query == PEER_QUERY_DUE;
}

/* The association identifier that an AP gives to the peer at this place. */
static inline uint16_t peer_aid(unsigned place)
{
    return (uint16_t)(place + 1);
}

/* Puts a comeback time behind a rejection of so many octets, in a buffer that has room for so many. Gives the new length; 0, and
   nothing is written, where the room does not suffice. */
static inline size_t peer_comeback_append(uint8_t *frame, size_t frame_octets, size_t room, uint32_t comeback)
{
    uint8_t *element;
    int i;

    if (room < PEER_COMEBACK_OCTETS || room - PEER_COMEBACK_OCTETS < frame_octets)
        return 0;
    element = frame + frame_octets;
    element[0] = PEER_COMEBACK_ELEMENT;
    element[1] = PEER_COMEBACK_LENGTH;
    element[2] = PEER_COMEBACK_TYPE;
    for (i = 0; i < 4; i++)
        element[3 + i] = (uint8_t)(comeback >> (8 * i));
    return frame_octets + PEER_COMEBACK_OCTETS;
}

/* A timeout that peer_pass wrote to out, by its number from 0. One that is not there has kind 0. */
static inline peer_timeout peer_timeout_at(const uint8_t *out, size_t written, size_t number)
{
    peer_timeout timeout = { 0, 0, 0 };

    if (number < written / PEER_TIMEOUT_OCTETS) {
        timeout.place = out[PEER_TIMEOUT_OCTETS * number];
        timeout.kind = out[PEER_TIMEOUT_OCTETS * number + 1];
        timeout.address = peer_address_read(out + PEER_TIMEOUT_OCTETS * number + 2);
    }
    return timeout;
}

#endif
