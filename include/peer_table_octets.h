/* peer_table_octets.h - the peer table's numbers and its calls, as every processor has them: over numbers and octets alone.
 *
 * Include peer_table.h, which says what a host must know and puts structs and small functions round these calls. A host that is not
 * little-endian, or that brings its own forms, includes this file by itself.
 *
 * Every number of several octets is little-endian. A slice lies at any alignment, its length is 64 bits on every processor.
 *   table      1,536 octets, read and written: 32 records of address 8, hold 4, left 2, state 1, exchange 1, of the SA Query identifier 2,
 *              left 2, number 4, and of links four addresses of 6, from the first on, zero behind the last. All zero: the empty table
 *   settings   24 octets: role 1, own address 6 (as in a frame), rsna 1, authentication timeout 2, association timeout 2, edition 1,
 *              protection 1, query retry 2, query maximum 2, the ad hoc network's address 6. Of an AP or a station also the first 18 of
 *              these; or the first 14, with the usual times of a query; or the first 12: edition 1 without protection besides
 *   frame      any octets, without FCS
 *   named      a device and its links: device address 6, count 1, and as many links of 6
 *   out        what the call writes, from its first octet on
 *   answer     24 octets or more, of which 24 are written: current AP 8, code 2, written 2, refusal 1, verdict 1, notice 1,
 *              distribution system 1, state 1, zero 7
 * The result is the refusal's number. A refusal writes its number and zeros into the answer, and leaves table and out. Where the answer
 * is too short, which is refusal 1, nothing at all is written.
 *
 * A fifth call makes many of these: peer_run_octets is lent records, each an event, and makes the single calls one after the other, with one check of settings
 * and table at the start. A record is the mark 0B 03, its kind 1, the length of its body 2, and the body:
 *   kind 1     a primitive: its number 1, the peer's address 6, the code 2
 *   kind 2     a frame, of at most 4,096 octets
 *   kind 3     a clock step 2
 *   kind 4     links named: as above, so many as the count says
 * Each answer takes 24 octets behind the one before, and what an event writes goes behind what the one before it wrote: of out, each is lent what is left. The result is
 * how many events were played. It stops behind the last record; at one that is cut, of another mark or kind, or of a length that its kind has not; where
 * fewer than 24 octets are left for the answer; and where out has less left than the event's own call needs. What was played until then stands, and octets
 * beyond stay as they were. Where settings or table are not well formed, each event is answered by refusal 2.
 *
 * Each of the four calls has a fellow that says why it comes to what it does: peer_why_.. is lent the same, but table and settings to be read alone, in
 * place of out its length (room), and in place of the answer the octets for a value. The result is the reason's number. The value, 8 octets, is written at
 * the front of those lent for it; where there are fewer, it is not. */
#ifndef PEER_TABLE_OCTETS_H
#define PEER_TABLE_OCTETS_H

#include <stdint.h>

/* Rises when a call, a layout or a number changes. */
#define PEER_TABLE_VERSION 8

/* Sizes in octets, counts, and the times that the rules fix. A time is in TU of 1,024 microseconds. */
enum {
    PEER_PLACES = 32,
    PEER_LINKS = 4,            /* most links of a device */
    PEER_RECORD_OCTETS = 48,
    PEER_TABLE_OCTETS = 1536,
    PEER_SETTINGS_OCTETS = 24,
    PEER_SETTINGS_OCTETS_QUERY = 18,   /* without a network's address: not for PEER_AD_HOC */
    PEER_SETTINGS_OCTETS_EDITION = 14, /* nor a query's times */
    PEER_SETTINGS_OCTETS_LEAST = 12,   /* nor edition and protection; no other length is taken */
    PEER_ANSWER_OCTETS = 24,
    PEER_VALUE_OCTETS = 8,     /* the value beside a reason */
    PEER_ADDRESS_OCTETS = 6,
    PEER_NAMED_OCTETS_LEAST = 7, /* a device without links; six more for each */
    PEER_NAMED_OCTETS_MOST = 31,
    PEER_FRAME_LONGEST = 4096,
    PEER_OUT_LEAST = 37,       /* a frame was received, our side asks or names links: the longest frame written */
    PEER_PASS_OUT_LEAST = 256, /* time passed: 32 timeouts */
    PEER_TIMEOUT_OCTETS = 8,   /* one timeout: place, kind, address of six octets */
    PEER_RUN_HEAD_OCTETS = 5,  /* of a record, before its body */
    PEER_STACK_OCTETS = 2304,  /* below the caller's frame, on every target; tested, not proved: README.md has the most seen */
    PEER_HOLD_USUAL = 1954,    /* 2 s: the hold after a rejection without a comeback time, and after a disassociation received */
    PEER_QUERY_RETRY_USUAL = 201,   /* a query's times in settings that do not say them */
    PEER_QUERY_MAXIMUM_USUAL = 1000
};

/* The role in the settings */
enum {
    PEER_AP = 1,
    PEER_STATION = 2,
    PEER_AD_HOC = 3 /* one of several without an AP: each asks for authentication and answers, nobody associates */
};

/* The edition in the settings: where a peer stands after an AP has rejected its (re)association. With protection edition 2 also has each
   (re)association request from a peer in State 4 asked back by an SA Query. Nothing else depends on it. */
enum {
    PEER_EDITION_1 = 1, /* in State 2: a peer that was associated is so no longer */
    PEER_EDITION_2 = 2  /* where it stood, also associated; only State 4 becomes 3 where management frames are not protected */
};

/* Refusals: the first that applies.
     a primitive   1, 2, 3, 5, 9, 7, 8, 6; links named have neither 9 nor 8
     a frame       1, 2, 3 for its length, 4, 3 for Address 2, 3 for elements; one without a class is discarded before 4 is looked at
     a clock step  1, 2, 3 */
enum {
    PEER_DONE = 0,
    PEER_REFUSED_BUFFER = 1,   /* out or answer is too short */
    PEER_REFUSED_TABLE = 2,    /* settings or table not well formed, or not of their length */
    PEER_REFUSED_INPUT = 3,    /* unknown primitive; code, clock step or peer address not allowed, a link's too; frame too short or too long,
                                  its Address 2 invalid or own, or a (re)association response whose elements do not end with it; of links
                                  named: too many, or an address that is invalid, our own, given twice or in use elsewhere */
    PEER_REFUSED_FOREIGN = 4,  /* the frame is neither for us nor for a group */
    PEER_REFUSED_ROLE = 5,     /* the primitive is for another role */
    PEER_REFUSED_FULL = 6,     /* no place is free for a new record */
    PEER_REFUSED_NO_MATCH = 7, /* the primitive finds no matching exchange or state */
    PEER_REFUSED_HELD = 8,     /* this AP told the station to wait, and the time is not over */
    PEER_REFUSED_BUSY = 9      /* an exchange is under way */
};

/* Why a call comes to what it does: the first rule that decides. 1 to 9 are the refusals, by their own numbers. The value beside a reason is the frame's length
   for refusal 3 (0 where it is of no frame), the state of the peer for refusal 7 and the class filter (1 for a peer without a record), the hold left
   for refusal 8, else 0. */
enum {
    PEER_WHY_NONE = 0,          /* something is done; of all but frames: it is not refused */
    PEER_WHY_NO_CLASS = 10,     /* discarded: of another version, or no class */
    PEER_WHY_CLASS_FILTER = 11, /* discarded: its class does not pass in the peer's state */
    PEER_WHY_GROUP_RULE = 12,   /* discarded: an exchange's frame to a group address */
    PEER_WHY_NOTHING_TO_DO = 13 /* admitted: no record changes, there is no notice, nothing is written */
};

/* The verdict on a frame */
enum { PEER_NO_VERDICT = 0, PEER_ADMIT = 1, PEER_DISCARD = 2 };

/* The notice, to be passed on to our own side. An indication says what a peer did, a confirm how our request ended. */
enum {
    PEER_NO_NOTICE = 0,
    PEER_AUTHENTICATION_INDICATION = 1,
    PEER_AUTHENTICATION_CONFIRM = 2,
    PEER_DEAUTHENTICATION_INDICATION = 3,
    PEER_DEAUTHENTICATION_CONFIRM = 4,
    PEER_ASSOCIATION_INDICATION = 5,
    PEER_ASSOCIATION_CONFIRM = 6,
    PEER_REASSOCIATION_INDICATION = 7,
    PEER_REASSOCIATION_CONFIRM = 8,
    PEER_DISASSOCIATION_INDICATION = 9,
    PEER_DISASSOCIATION_CONFIRM = 10
};

/* What an AP tells the distribution system */
enum { PEER_DS_NOTHING = 0, PEER_DS_JOINED = 1, PEER_DS_LEFT = 2 };

/* The state of a peer; 0 is a free place, or no record, or no peer. In an ad hoc network there are States 1 and 2 alone. */
enum {
    PEER_NO_STATE = 0,
    PEER_STATE_1 = 1, /* not authenticated */
    PEER_STATE_2 = 2, /* authenticated, not associated */
    PEER_STATE_3 = 3, /* authenticated and associated, RSNA still to be established */
    PEER_STATE_4 = 4  /* authenticated and associated, RSNA established or not required */
};

/* The exchange of a record: asked of us and awaiting an acknowledgement are an AP's, sent is a station's; in an ad hoc network an
   authentication is asked or sent. 4 is never well formed. */
enum {
    PEER_NO_EXCHANGE = 0,
    PEER_ASKED_AUTHENTICATION = 1,
    PEER_ASKED_ASSOCIATION = 2,
    PEER_ASKED_REASSOCIATION = 3,
    PEER_AWAITING_AUTHENTICATION = 4,
    PEER_AWAITING_ASSOCIATION = 5,
    PEER_AWAITING_REASSOCIATION = 6,
    PEER_SENT_AUTHENTICATION = 7,
    PEER_SENT_ASSOCIATION = 8,
    PEER_SENT_REASSOCIATION = 9
};

/* The SA Query of a record, an AP's in State 4: whether a request to join came from the peer that has joined, or from another in its name */
enum {
    PEER_NO_QUERY = 0,
    PEER_QUERY_RUNNING = 1,  /* its request was sent */
    PEER_QUERY_DUE = 2,      /* it runs, and its request is to be sent, first or once more: PEER_SA_QUERY_REQUEST */
    PEER_QUERY_TIMED_OUT = 3 /* nobody answered: the next (re)association request passes, and uses this up */
};

/* The kind of a timeout: an exchange ended, or a time of a query is over */
enum {
    PEER_KIND_AUTHENTICATION = 1,
    PEER_KIND_ASSOCIATION = 2,
    PEER_KIND_REASSOCIATION = 3,
    PEER_KIND_QUERY_DUE = 4,      /* the retry time: the request is due once more */
    PEER_KIND_QUERY_TIMED_OUT = 5 /* the maximum: the query ended without an answer */
};

/* Primitives of our own side: for whom, and which code goes with it. The links of a device are named by a call of their own: as a primitive
   12 is refused. */
enum {
    PEER_AUTHENTICATE_REQUEST = 1,  /* station, ad hoc, 0 */
    PEER_AUTHENTICATE_RESPONSE = 2, /* AP, ad hoc, status */
    PEER_DEAUTHENTICATE = 3,        /* every role, reason other than 0 */
    PEER_ASSOCIATE_REQUEST = 4,     /* station, 0 */
    PEER_REASSOCIATE_REQUEST = 5,   /* station, 0 */
    PEER_DISASSOCIATE = 6,          /* AP and station, reason other than 0 */
    PEER_ASSOCIATE_RESPONSE = 7,    /* AP, status */
    PEER_REASSOCIATE_RESPONSE = 8,  /* AP, status */
    PEER_SET_PROTECTION = 9,        /* AP and station, 0: the keys are in place, State 3 becomes 4 */
    PEER_TRANSMIT_REPORT = 10,      /* AP: was our (re)association response acknowledged? */
    PEER_SA_QUERY_REQUEST = 11      /* AP, 0: sends the request of a query that is due */
};

/* The kind of a record that peer_run_octets takes, and the two octets that each begins with */
enum { PEER_RUN_ASK = 1, PEER_RUN_RECEIVE = 2, PEER_RUN_PASS = 3, PEER_RUN_LINKS = 4, PEER_RUN_MARK_FIRST = 0x0b, PEER_RUN_MARK_SECOND = 0x03 };

/* The code of PEER_TRANSMIT_REPORT */
enum { PEER_NOT_ACKNOWLEDGED = 0, PEER_ACKNOWLEDGED = 1 };

/* Status and reason codes that the library writes, and three that hosts commonly give. Any other number of the standard may be given. */
enum {
    PEER_STATUS_SUCCESS = 0,
    PEER_STATUS_UNSPECIFIED = 1,       /* to a (re)association request in State 1; confirm of a join that can't be asked */
    PEER_STATUS_ALGORITHM = 13,        /* to an authentication that is not open */
    PEER_STATUS_FULL = 17,             /* to an authentication when no place is free */
    PEER_STATUS_TRY_LATER = 30,        /* rejected for now, by the host or while an SA Query runs; the comeback time is in an element */
    PEER_REASON_LEAVING = 3,           /* deauthenticated because leaving */
    PEER_REASON_NOT_AUTHENTICATED = 6, /* class 2 frame in State 1 */
    PEER_REASON_NOT_ASSOCIATED = 7,    /* class 3 frame in State 1 or 2 */
    PEER_REASON_LEFT_BSS = 8           /* disassociated because leaving */
};

/* The element of a rejection that says after how many TU the station may come back: id 56, length 5, type 3, a number of 4 octets.
   A comeback of 0 is a hold of 0: the station may ask again at once. Without the element the hold is PEER_HOLD_USUAL. */
enum { PEER_COMEBACK_ELEMENT = 56, PEER_COMEBACK_LENGTH = 5, PEER_COMEBACK_TYPE = 3, PEER_COMEBACK_OCTETS = 7 };

/* An SA Query frame: an Action frame (subtype 13) of 28 octets, category at octet 24, action at 25, identifier in two octets from 26 on */
enum { PEER_CATEGORY_SA_QUERY = 8, PEER_ACTION_QUERY_REQUEST = 0, PEER_ACTION_QUERY_RESPONSE = 1, PEER_QUERY_OCTETS = 28 };

#ifdef __cplusplus
extern "C" {
#endif

/* A frame was received. */
uint64_t peer_receive_octets(uint8_t *table, uint64_t table_octets, const uint8_t *settings, uint64_t settings_octets,
                             const uint8_t *frame, uint64_t frame_octets, uint8_t *out, uint64_t out_octets,
                             uint8_t *answer, uint64_t answer_octets);

/* Our own side asks for something. The address is a number, the first octet lowest. */
uint64_t peer_ask_octets(uint8_t *table, uint64_t table_octets, const uint8_t *settings, uint64_t settings_octets,
                         uint8_t primitive, uint64_t address, uint16_t code, uint8_t *out, uint64_t out_octets,
                         uint8_t *answer, uint64_t answer_octets);

/* Our own side names the links of a device, at an AP. */
uint64_t peer_links_octets(uint8_t *table, uint64_t table_octets, const uint8_t *settings, uint64_t settings_octets,
                           const uint8_t *named, uint64_t named_octets, uint8_t *out, uint64_t out_octets,
                           uint8_t *answer, uint64_t answer_octets);

/* Time passed. */
uint64_t peer_pass_octets(uint8_t *table, uint64_t table_octets, const uint8_t *settings, uint64_t settings_octets,
                          uint16_t step, uint8_t *out, uint64_t out_octets, uint8_t *answer, uint64_t answer_octets);

/* Many events, one after the other; gives how many were played. */
uint64_t peer_run_octets(uint8_t *table, uint64_t table_octets, const uint8_t *settings, uint64_t settings_octets,
                         const uint8_t *records, uint64_t record_octets, uint8_t *out, uint64_t out_octets,
                         uint8_t *answers, uint64_t answer_octets);

/* Why: a frame received, our own side asking or naming links, time passed, with a buffer of so many octets. */
uint64_t peer_why_receive_octets(const uint8_t *table, uint64_t table_octets, const uint8_t *settings, uint64_t settings_octets,
                                 const uint8_t *frame, uint64_t frame_octets, uint64_t room, uint8_t *value, uint64_t value_octets);

uint64_t peer_why_ask_octets(const uint8_t *table, uint64_t table_octets, const uint8_t *settings, uint64_t settings_octets,
                             uint8_t primitive, uint64_t address, uint16_t code, uint64_t room, uint8_t *value, uint64_t value_octets);

uint64_t peer_why_links_octets(const uint8_t *table, uint64_t table_octets, const uint8_t *settings, uint64_t settings_octets,
                               const uint8_t *named, uint64_t named_octets, uint64_t room, uint8_t *value, uint64_t value_octets);

uint64_t peer_why_pass_octets(const uint8_t *table, uint64_t table_octets, const uint8_t *settings, uint64_t settings_octets,
                              uint16_t step, uint64_t room, uint8_t *value, uint64_t value_octets);

#ifdef __cplusplus
}
#endif

#endif
