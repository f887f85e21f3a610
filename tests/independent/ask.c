/* ask.c - the primitives from our own side: their refusals, and what each does. */
#include "rules.h"

enum { STATUS_UNSPECIFIED = 1 };

/* The kind of exchange that primitives 4, 5, 7 and 8 belong to. */
static uint8_t kind_of(unsigned primitive)
{
    return primitive == PT_REASSOCIATE_REQUEST || primitive == PT_REASSOCIATE_RESPONSE
               ? PT_REASSOCIATION : PT_ASSOCIATION;
}

static bool has_asked(const struct pt_step *t, uint8_t kind)
{
    return t->record && t->record->phase == PT_ASKED && t->record->kind == kind;
}

/* Refusals 9, 7, 8 and 6, the first that applies; a peer without a record has no exchange, State 1
   and no hold. */
static enum pt_refusal refusal(const struct pt_step *t, unsigned primitive)
{
    const struct pt_record *r = t->record;
    bool busy = r && r->phase != PT_NONE;

    switch (primitive) {
    case PT_AUTHENTICATE_REQUEST:
        if (busy)
            return PT_BUSY;
        return r || t->view.free >= 0 ? PT_DONE : PT_FULL;
    case PT_AUTHENTICATE_RESPONSE:
        return has_asked(t, PT_AUTHENTICATION) ? PT_DONE : PT_NO_MATCH;
    case PT_ASSOCIATE_REQUEST:
    case PT_REASSOCIATE_REQUEST:
        if (busy || t->view.associating)
            return PT_BUSY;
        /* An association is not for a station whose associated AP is another one. */
        if (primitive == PT_ASSOCIATE_REQUEST && t->view.joined >= 0 && t->view.joined != t->view.peer)
            return PT_NO_MATCH;
        return r && r->hold > 0 ? PT_HELD : PT_DONE;
    case PT_ASSOCIATE_RESPONSE:
    case PT_REASSOCIATE_RESPONSE:
        return has_asked(t, kind_of(primitive)) ? PT_DONE : PT_NO_MATCH;
    case PT_SETPROTECTION:
        return r && r->state >= 3 ? PT_DONE : PT_NO_MATCH;
    case PT_TRANSMIT_REPORT:
        return r && r->phase == PT_AWAITING ? PT_DONE : PT_NO_MATCH;
    case PT_SA_QUERY:
        return r && r->query == PT_QUERY_DUE ? PT_DONE : PT_NO_MATCH;
    default:
        return PT_DONE;
    }
}

static void confirm(struct pt_step *t, unsigned notice, uint16_t code)
{
    t->a.notice = (uint8_t)notice;
    t->a.code = code;
}

static void end_exchange(struct pt_step *t)
{
    pt_exchange(t->record, PT_NONE, PT_NO_KIND, 0);
}

/* 1: the only primitive that makes a record; sends authentication, state kept. */
static void authenticate_request(struct pt_step *t)
{
    if (!t->record)
        pt_new_record(t);
    pt_write_auth(t, 0, 1, 0);
    pt_exchange(t->record, PT_SENT, PT_AUTHENTICATION, t->s->auth_timeout);
}

/* 2: answers the authentication asked; status 0 lifts State 1 to 2, all else keeps the state. */
static void authenticate_response(struct pt_step *t, uint16_t status)
{
    pt_write_auth(t, 0, 2, status);
    end_exchange(t);
    if (status == 0 && t->record->state == 1)
        pt_move(t, 2);
}

/* 3: a frame from State 2 to 4 only; State 1 and no exchange after it; confirmed always. */
static void deauthenticate(struct pt_step *t, uint16_t reason)
{
    if (t->record) {
        if (t->record->state >= 2)
            pt_write_reason(t, PT_DEAUTH, reason);
        pt_move(t, 1);
        end_exchange(t);
    }
    confirm(t, PT_DEAUTH_CONFIRM, reason);
}

/* 4, 5: in State 1, or for a reassociation without an associated AP, confirms status 1 at once;
   otherwise sends the request. A reassociation's names the associated AP. */
static void associate_request(struct pt_step *t, uint8_t kind)
{
    bool again = kind == PT_REASSOCIATION;

    if (!t->record || t->record->state == 1 || (again && t->view.joined < 0)) {
        confirm(t, kind * 2u + 2, STATUS_UNSPECIFIED);
        return;
    }
    pt_write_request(t, kind, again ? t->table[t->view.joined].address : 0);
    pt_exchange(t->record, PT_SENT, kind, t->s->assoc_timeout);
}

/* 6: in State 3 or 4 a frame, State 2 and no exchange; else the record stays; confirmed always. */
static void disassociate(struct pt_step *t, uint16_t reason)
{
    if (t->record && t->record->state >= 3) {
        pt_write_reason(t, PT_DISASSOC, reason);
        pt_move(t, 2);
        end_exchange(t);
    }
    confirm(t, PT_DISASSOC_CONFIRM, reason);
}

/* The state after an AP's own rejection. The first edition sets State 2; the second moves State 4
   to 3 only, and no state at all where management frames are protected. */
static uint8_t rejected_state(const struct pt_settings *s, uint8_t state)
{
    if (s->edition == 1)
        return 2;
    return state == 4 && !s->protection ? 3 : state;
}

/* 7, 8: status 0 gives AID = place + 1 and awaits the acknowledgement, state kept; another status
   gives AID 0 and the state of a rejection, and the exchange ends. */
static void associate_response(struct pt_step *t, uint8_t kind, uint16_t status)
{
    if (status == 0) {
        pt_write_response(t, kind, 0, (uint16_t)(t->view.peer + 1));
        pt_exchange(t->record, PT_AWAITING, kind, 0);
        return;
    }
    pt_write_response(t, kind, status, 0);
    end_exchange(t);
    pt_move(t, rejected_state(t->s, t->record->state));
}

/* 10: acknowledged, associated; not acknowledged, state kept; the exchange ends. */
static void transmit_report(struct pt_step *t, uint16_t acknowledged)
{
    if (acknowledged == 1)
        pt_move(t, t->s->rsna ? 3 : 4);
    end_exchange(t);
}

static void act(struct pt_step *t, unsigned primitive, uint16_t code)
{
    switch (primitive) {
    case PT_AUTHENTICATE_REQUEST:
        authenticate_request(t);
        break;
    case PT_AUTHENTICATE_RESPONSE:
        authenticate_response(t, code);
        break;
    case PT_DEAUTHENTICATE:
        deauthenticate(t, code);
        break;
    case PT_ASSOCIATE_REQUEST:
    case PT_REASSOCIATE_REQUEST:
        associate_request(t, kind_of(primitive));
        break;
    case PT_DISASSOCIATE:
        disassociate(t, code);
        break;
    case PT_ASSOCIATE_RESPONSE:
    case PT_REASSOCIATE_RESPONSE:
        associate_response(t, kind_of(primitive), code);
        break;
    case PT_SETPROTECTION: /* 9: State 3 to 4; State 4 kept */
        pt_move(t, 4);
        break;
    case PT_TRANSMIT_REPORT:
        transmit_report(t, code);
        break;
    default: /* 11 */
        pt_query_ask(t);
    }
}

/* Refusals in the order 1, 2, 3, 5, then those of the primitive itself. */
struct pt_answer pt_ask(const struct pt_settings *s, struct pt_record *table,
                        unsigned primitive, uint64_t peer, uint16_t code,
                        uint8_t *out, size_t out_len)
{
    struct pt_view view;

    if (out_len < PT_OUT_LEAST)
        return pt_refuse(PT_BUFFER);
    if (!pt_look(s, table, peer, &view))
        return pt_refuse(PT_ILL_FORMED);
    /* A primitive names the device, never one of its links. */
    if (!pt_known(primitive, code) || !pt_valid(peer) || peer == s->own || view.linked)
        return pt_refuse(PT_BAD_INPUT);
    if (!pt_may_ask(s->role, primitive))
        return pt_refuse(PT_WRONG_ROLE);

    struct pt_step t = pt_begin(s, table, &view, peer, out);
    if (t.record && t.record->link_count > 0)
        t.peer = t.record->links[0];
    enum pt_refusal number = refusal(&t, primitive);
    if (number != PT_DONE)
        return pt_refuse(number);
    act(&t, primitive, code);
    t.a.state = t.record ? t.record->state : 0;
    return t.a;
}
