/* rules.h - the peer table of IEEE 802.11 clause 11.3: types, numbers and calls of the independent core. */
#ifndef RULES_H
#define RULES_H

#include <stdbool.h>
#include <stddef.h>
#include <stdint.h>

/* Numbers that the rules fix. Times are in TU. */
enum {
    PT_PLACES = 32,
    PT_FRAME_MAX = 4096,   /* longest frame taken */
    PT_OUT_LEAST = 37,     /* least output buffer of a frame or primitive */
    PT_CLOCK_OUT_LEAST = 256, /* least output buffer of a clock step */
    PT_TIME_MAX = 65535,   /* largest timeout, and largest time left of an exchange */
    PT_HOLD_USUAL = 1954,  /* the hold of 2 s, rounded up */
    PT_QUERY_RETRY_USUAL = 201, PT_QUERY_MAXIMUM_USUAL = 1000,
    PT_LINKS = 4           /* most links of a device */
};

enum pt_role { PT_AP = 1, PT_STATION = 2, PT_AD_HOC = 3 };
enum pt_phase { PT_NONE = 0, PT_ASKED = 1, PT_AWAITING = 2, PT_SENT = 3 };
enum pt_kind { PT_NO_KIND = 0, PT_AUTHENTICATION = 1, PT_ASSOCIATION = 2, PT_REASSOCIATION = 3 };
/* An SA Query: none, running with its request sent, running with a request due, timed out. */
enum pt_query { PT_NO_QUERY = 0, PT_QUERY_RUNS = 1, PT_QUERY_DUE = 2, PT_QUERY_TIMED_OUT = 3 };
enum pt_verdict { PT_NO_VERDICT = 0, PT_ADMIT = 1, PT_DISCARD = 2 };
enum pt_ds { PT_DS_SILENT = 0, PT_DS_JOINED = 1, PT_DS_LEFT = 2 };

/* Notices 1, 5 and 7 indicate an exchange of kind 1, 2 and 3; 2, 6 and 8 confirm it. */
enum pt_notice {
    PT_NO_NOTICE = 0,
    PT_AUTH_INDICATION = 1, PT_AUTH_CONFIRM = 2,
    PT_DEAUTH_INDICATION = 3, PT_DEAUTH_CONFIRM = 4,
    PT_ASSOC_INDICATION = 5, PT_ASSOC_CONFIRM = 6,
    PT_REASSOC_INDICATION = 7, PT_REASSOC_CONFIRM = 8,
    PT_DISASSOC_INDICATION = 9, PT_DISASSOC_CONFIRM = 10
};

enum pt_refusal {
    PT_DONE = 0, PT_BUFFER = 1, PT_ILL_FORMED = 2, PT_BAD_INPUT = 3, PT_FOREIGN = 4,
    PT_WRONG_ROLE = 5, PT_FULL = 6, PT_NO_MATCH = 7, PT_HELD = 8, PT_BUSY = 9
};

/* The primitives with one peer and a code; primitive 12, with a list of links, has its own call. */
enum pt_primitive {
    PT_AUTHENTICATE_REQUEST = 1, PT_AUTHENTICATE_RESPONSE = 2, PT_DEAUTHENTICATE = 3,
    PT_ASSOCIATE_REQUEST = 4, PT_REASSOCIATE_REQUEST = 5, PT_DISASSOCIATE = 6,
    PT_ASSOCIATE_RESPONSE = 7, PT_REASSOCIATE_RESPONSE = 8, PT_SETPROTECTION = 9,
    PT_TRANSMIT_REPORT = 10, PT_SA_QUERY = 11, PT_PRIMITIVES = 11
};

/* Management subtypes of the standard that the rules name. */
enum pt_subtype {
    PT_ASSOC_REQUEST = 0, PT_ASSOC_RESPONSE = 1, PT_REASSOC_REQUEST = 2,
    PT_REASSOC_RESPONSE = 3, PT_DISASSOC = 10, PT_AUTH = 11, PT_DEAUTH = 12, PT_ACTION = 13,
    PT_ACTION_NO_ACK = 14
};

/* SA Query actions, the octet behind category 8. */
enum pt_query_action { PT_QUERY_REQUEST = 0, PT_QUERY_RESPONSE = 1 };
enum { PT_CATEGORY = 24, PT_CATEGORY_PUBLIC = 4, PT_CATEGORY_SA_QUERY = 8 };
enum { PT_TIMEOUT_INTERVAL = 56, PT_COMEBACK = 3 }; /* an element's id, and its type */

/* An address is six octets as a little-endian number; 2^48 and above is invalid. */
struct pt_settings {
    uint64_t own;
    uint32_t auth_timeout;
    uint32_t assoc_timeout;
    uint8_t role;
    uint8_t rsna;
    uint8_t edition;    /* 1 or 2: which rule a rejected (re)association follows at an AP */
    uint8_t protection; /* management frames are protected; edition 1 does not look at it */
    uint32_t query_retry;   /* an SA Query's request is due at its start and each time this passes */
    uint32_t query_maximum; /* from a query's start until it times out */
    uint64_t network;       /* the ad hoc network's address; the other two roles do not look at it */
};

/* One place of the table. A free place is all zero. The address is the device's; links behind the
   count are zero. */
struct pt_record {
    uint64_t address;
    uint64_t links[PT_LINKS];
    uint8_t link_count;
    uint32_t left;
    uint32_t hold;
    uint8_t state;
    uint8_t phase;
    uint8_t kind;
    uint16_t identifier; /* of the last SA Query begun; the first of a record is 1 */
    uint8_t query;
    uint32_t query_left; /* of a query that runs */
};

/* What a call answers. A refusal has every other field zero. */
struct pt_answer {
    uint64_t current; /* current AP of a reassociation indication, unchecked */
    uint16_t code;
    uint16_t written;
    uint8_t refusal;
    uint8_t verdict;
    uint8_t notice;
    uint8_t ds;
    uint8_t state;
};

/* The four calls. `table` is PT_PLACES records of any contents. */
struct pt_answer pt_receive(const struct pt_settings *s, struct pt_record *table,
                            const uint8_t *frame, size_t frame_len,
                            uint8_t *out, size_t out_len);
struct pt_answer pt_ask(const struct pt_settings *s, struct pt_record *table,
                        unsigned primitive, uint64_t peer, uint16_t code,
                        uint8_t *out, size_t out_len);
struct pt_answer pt_clock(const struct pt_settings *s, struct pt_record *table,
                          uint16_t step, uint8_t *out, size_t out_len);
/* Primitive 12: these are the links of a device. Nothing is written; of more than four links only
   their number is looked at. */
struct pt_answer pt_link(const struct pt_settings *s, struct pt_record *table, uint64_t device,
                         const uint64_t *links, size_t count, size_t out_len);

/* ---- From here on: shared by the library's own files. ---- */

/* What one pass over the table finds; a place is -1 where there is none. */
struct pt_view {
    int peer;         /* the peer's record, where the address looked for is the device's or a link's */
    bool linked;      /* that address is a link's */
    int free;         /* lowest free place */
    int joined;       /* a record in State 3 or 4; a station has at most one */
    bool associating; /* some (re)association exchange is under way */
};

/* One frame or primitive being carried out, once it can no longer be refused. */
struct pt_step {
    const struct pt_settings *s;
    struct pt_record *table;
    struct pt_view view;
    struct pt_record *record; /* the peer's, or NULL */
    uint64_t peer; /* whom a frame is written to, and the address of a new record */
    uint8_t *out;
    struct pt_answer a;
};

/* The class of a version 0 frame in a role, 0 for none, and the least length of one that has a class. */
unsigned pt_class_of(uint8_t role, const uint8_t *frame, size_t len);
unsigned pt_least_length(uint8_t first);

/* Checks settings and table, every clause, and looks for `peer` on the way. */
bool pt_look(const struct pt_settings *s, const struct pt_record *table, uint64_t peer,
             struct pt_view *view);

struct pt_step pt_begin(const struct pt_settings *s, struct pt_record *table,
                        const struct pt_view *view, uint64_t peer, uint8_t *out);
void pt_move(struct pt_step *t, uint8_t state);
void pt_new_record(struct pt_step *t);
void pt_exchange(struct pt_record *r, enum pt_phase phase, uint8_t kind, uint32_t left);

/* Which primitives there are, and for whom (primitives.c). */
bool pt_known(unsigned primitive, uint16_t code);
bool pt_may_ask(uint8_t role, unsigned primitive);

/* The links of a device (link.c). */
bool pt_links_fit(const struct pt_settings *s, const struct pt_record *r);

/* An SA Query (query.c). */
bool pt_query_fits(const struct pt_settings *s, const struct pt_record *r);
void pt_query_end(struct pt_record *r);
bool pt_query_denies(const struct pt_step *t);
void pt_query_deny(struct pt_step *t, uint8_t kind);
void pt_query_ask(struct pt_step *t);
void pt_query_heard(struct pt_step *t, const uint8_t *frame, size_t len);
uint8_t pt_query_age(const struct pt_settings *s, struct pt_record *r, uint32_t step);

/* The frames written; each sets the number of octets written. */
void pt_write_auth(struct pt_step *t, uint16_t algorithm, uint16_t transaction, uint16_t status);
void pt_write_request(struct pt_step *t, uint8_t kind, uint64_t current);
void pt_write_response(struct pt_step *t, uint8_t kind, uint16_t status, uint16_t aid);
void pt_write_comeback(struct pt_step *t, uint8_t kind, uint16_t status, uint32_t value);
void pt_write_reason(struct pt_step *t, enum pt_subtype subtype, uint16_t reason);
void pt_write_query(struct pt_step *t, enum pt_query_action action, uint16_t identifier);

/* The elements of a (re)association response of 30 octets or more; a comeback is of whole ones. */
bool pt_elements_whole(const uint8_t *frame, size_t len);
uint32_t pt_comeback(const uint8_t *frame, size_t len);

static inline struct pt_answer pt_refuse(enum pt_refusal number)
{
    return (struct pt_answer){ .refusal = (uint8_t)number };
}

/* Valid: six octets, individual (lowest bit of the first octet 0), not all zero. */
static inline bool pt_valid(uint64_t address)
{
    return address != 0 && (address & 1) == 0 && address >> 48 == 0;
}

/* Whether the address is the record's device's or one of its links'. */
static inline bool pt_has_address(const struct pt_record *r, uint64_t address)
{
    if (r->address == address)
        return true;
    for (int i = 0; i < r->link_count; i++)
        if (r->links[i] == address)
            return true;
    return false;
}

static inline uint16_t pt_get16(const uint8_t *p)
{
    return (uint16_t)(p[0] | p[1] << 8);
}

static inline uint32_t pt_get32(const uint8_t *p)
{
    return pt_get16(p) | (uint32_t)pt_get16(p + 2) << 16;
}

static inline uint64_t pt_get48(const uint8_t *p)
{
    return pt_get32(p) | (uint64_t)pt_get16(p + 4) << 32;
}

static inline void pt_put16(uint8_t *p, uint16_t n)
{
    p[0] = (uint8_t)n;
    p[1] = (uint8_t)(n >> 8);
}

static inline void pt_put32(uint8_t *p, uint32_t n)
{
    pt_put16(p, (uint16_t)n);
    pt_put16(p + 2, (uint16_t)(n >> 16));
}

static inline void pt_put48(uint8_t *p, uint64_t n)
{
    for (int i = 0; i < 6; i++)
        p[i] = (uint8_t)(n >> (8 * i));
}

#endif
