/* write.c - the frames written: the 24 octets that all have, and each body. */
#include "rules.h"

#include <string.h>

/* Address 3: the AP's, which is our own or the peer's, or the ad hoc network's. */
static uint64_t third(const struct pt_step *t)
{
    if (t->s->role == PT_AD_HOC)
        return t->s->network;
    return t->s->role == PT_AP ? t->s->own : t->peer;
}

/* The 24 octets before each body: duration 0, Address 1 the peer, Address 2 own, Address 3, sequence
   control 0. Gives the place of the body. */
static uint8_t *write_head(struct pt_step *t, unsigned subtype)
{
    uint8_t *p = t->out;

    memset(p, 0, 24);
    p[0] = (uint8_t)(subtype << 4);
    pt_put48(p + 4, t->peer);
    pt_put48(p + 10, t->s->own);
    pt_put48(p + 16, third(t));
    return p + 24;
}

/* The capability: 0001, with the privacy bit (0011) where RSNA is required. */
static uint16_t capability(const struct pt_settings *s)
{
    return s->rsna ? 0x0011 : 0x0001;
}

/* Authentication: algorithm, transaction, status. */
void pt_write_auth(struct pt_step *t, uint16_t algorithm, uint16_t transaction, uint16_t status)
{
    uint8_t *p = write_head(t, PT_AUTH);

    pt_put16(p, algorithm);
    pt_put16(p + 2, transaction);
    pt_put16(p + 4, status);
    t->a.written = 30;
}

/* (Re)association request: capability, listen interval 10; a reassociation then the current AP. */
void pt_write_request(struct pt_step *t, uint8_t kind, uint64_t current)
{
    bool again = kind == PT_REASSOCIATION;
    uint8_t *p = write_head(t, again ? PT_REASSOC_REQUEST : PT_ASSOC_REQUEST);

    pt_put16(p, capability(t->s));
    pt_put16(p + 2, 10);
    if (again)
        pt_put48(p + 4, current);
    t->a.written = again ? 34 : 28;
}

/* (Re)association response: capability, status, AID with both top bits set, AID 0 all clear. */
void pt_write_response(struct pt_step *t, uint8_t kind, uint16_t status, uint16_t aid)
{
    uint8_t *p = write_head(t, kind == PT_REASSOCIATION ? PT_REASSOC_RESPONSE : PT_ASSOC_RESPONSE);

    pt_put16(p, capability(t->s));
    pt_put16(p + 2, status);
    pt_put16(p + 4, aid ? (uint16_t)(aid | 0xC000) : 0);
    t->a.written = 30;
}

/* The same with AID 0 and one element behind it: Timeout Interval, type 3, the value. */
void pt_write_comeback(struct pt_step *t, uint8_t kind, uint16_t status, uint32_t value)
{
    uint8_t *p = t->out + 30;

    pt_write_response(t, kind, status, 0);
    p[0] = PT_TIMEOUT_INTERVAL;
    p[1] = 5;
    p[2] = PT_COMEBACK;
    pt_put32(p + 3, value);
    t->a.written = 37;
}

/* Deauthentication or disassociation: the reason. */
void pt_write_reason(struct pt_step *t, enum pt_subtype subtype, uint16_t reason)
{
    pt_put16(write_head(t, subtype), reason);
    t->a.written = 26;
}

/* SA Query request or response: category 8, action, identifier. */
void pt_write_query(struct pt_step *t, enum pt_query_action action, uint16_t identifier)
{
    uint8_t *p = write_head(t, PT_ACTION);

    p[0] = PT_CATEGORY_SA_QUERY;
    p[1] = (uint8_t)action;
    pt_put16(p + 2, identifier);
    t->a.written = 28;
}
