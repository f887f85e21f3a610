/* receive.c - a received frame: the eight steps of the rules, and what each frame does. */
#include "rules.h"

enum { MANAGEMENT = 0, CONTROL = 1, CTS = 12, ACK = 13 };
enum { REASON_NOT_AUTHENTICATED = 6, REASON_NOT_ASSOCIATED = 7 };
enum { STATUS_UNSPECIFIED = 1, STATUS_ALGORITHM = 13, STATUS_FULL = 17 };

/* The kind of exchange that a (re)association request or response belongs to. */
static uint8_t kind_of(unsigned subtype)
{
    return subtype >= PT_REASSOC_REQUEST ? PT_REASSOCIATION : PT_ASSOCIATION;
}

static bool is_request(unsigned subtype)
{
    return subtype == PT_ASSOC_REQUEST || subtype == PT_REASSOC_REQUEST;
}

/* True where the peer's record has sent an exchange of this kind. */
static bool has_sent(const struct pt_step *t, uint8_t kind)
{
    return t->record && t->record->phase == PT_SENT && t->record->kind == kind;
}

static void notify(struct pt_step *t, unsigned notice, uint16_t code)
{
    t->a.notice = (uint8_t)notice;
    t->a.code = code;
}

/* Step 6: class 1 passes, in an ad hoc network it alone; class 2 in State 2 and above, class 3 in
   State 3 and above. */
static bool passes(uint8_t role, unsigned class, unsigned state)
{
    return class == 1 || (role != PT_AD_HOC && class <= state);
}

/* Step 6, the frame does not pass: the answer to one that is individually addressed, none in an ad
   hoc network. Only management frames are class 2. The record does not change. */
static void reply_to_class(struct pt_step *t, unsigned class, unsigned state, unsigned subtype)
{
    if (t->s->role == PT_AD_HOC)
        return;
    if (class == 2 && t->s->role == PT_AP && is_request(subtype))
        pt_write_response(t, kind_of(subtype), STATUS_UNSPECIFIED, 0);
    else if (class == 2)
        pt_write_reason(t, PT_DEAUTH, REASON_NOT_AUTHENTICATED);
    else
        pt_write_reason(t, state == 1 ? PT_DEAUTH : PT_DISASSOC, REASON_NOT_ASSOCIATED);
}

/* Authentication, transaction 1, not at a station. A foreign algorithm is answered 13, a full table
   17, both without a change; otherwise authentication is asked, whatever was under way. */
static void authentication_asked(struct pt_step *t, uint16_t algorithm)
{
    if (algorithm != 0) {
        pt_write_auth(t, algorithm, 2, STATUS_ALGORITHM);
        return;
    }
    if (!t->record && t->view.free < 0) {
        pt_write_auth(t, 0, 2, STATUS_FULL);
        return;
    }
    if (!t->record)
        pt_new_record(t);
    pt_exchange(t->record, PT_ASKED, PT_AUTHENTICATION, 0);
    notify(t, PT_AUTH_INDICATION, 0);
}

/* Authentication, transaction 2, not at an AP: algorithm 0, and authentication sent to this peer.
   Success lifts State 1 to 2 and leaves higher states. */
static void authentication_answered(struct pt_step *t, uint16_t algorithm, uint16_t status)
{
    if (algorithm != 0 || !has_sent(t, PT_AUTHENTICATION))
        return;
    pt_exchange(t->record, PT_NONE, PT_NO_KIND, 0);
    if (status == 0 && t->record->state == 1)
        pt_move(t, 2);
    notify(t, PT_AUTH_CONFIRM, status);
}

/* Each end of an ad hoc network may ask and answer, so both rules are its own. */
static void authentication(struct pt_step *t, const uint8_t *body)
{
    uint16_t algorithm = pt_get16(body), transaction = pt_get16(body + 2);

    if (transaction == 1 && t->s->role != PT_STATION)
        authentication_asked(t, algorithm);
    if (transaction == 2 && t->s->role != PT_AP)
        authentication_answered(t, algorithm, pt_get16(body + 4));
}

/* Deauthentication in State 2 to 4: State 1, the exchange ends, the hold stays. */
static void deauthentication(struct pt_step *t, uint16_t reason)
{
    if (!t->record || t->record->state < 2)
        return;
    pt_move(t, 1);
    pt_exchange(t->record, PT_NONE, PT_NO_KIND, 0);
    notify(t, PT_DEAUTH_INDICATION, reason);
}

/* Disassociation in State 3 or 4: State 2, the exchange ends; a station holds for 2 s. */
static void disassociation(struct pt_step *t, uint16_t reason)
{
    if (!t->record || t->record->state < 3)
        return;
    pt_move(t, 2);
    pt_exchange(t->record, PT_NONE, PT_NO_KIND, 0);
    if (t->s->role == PT_STATION)
        t->record->hold = PT_HOLD_USUAL;
    notify(t, PT_DISASSOC_INDICATION, reason);
}

/* (Re)association request at an AP: it is asked, whatever was under way. A reassociation's
   indication carries the current AP, octets 28 to 33, as they come. One that may be forged is
   denied first, with a query; one that passes uses up the mark of a query that timed out. */
static void association_request(struct pt_step *t, uint8_t kind, const uint8_t *frame)
{
    if (t->s->role != PT_AP)
        return;
    if (pt_query_denies(t)) {
        pt_query_deny(t, kind);
        return;
    }
    if (t->record->query == PT_QUERY_TIMED_OUT)
        pt_query_end(t->record);
    pt_exchange(t->record, PT_ASKED, kind, 0);
    notify(t, kind * 2u + 1, 0);
    if (kind == PT_REASSOCIATION)
        t->a.current = pt_get48(frame + 28);
}

/* (Re)association response at a station that has sent the matching exchange. Success with an AID
   outside 1 to 2007 does nothing; other success associates with this AP alone; any other status
   sets State 2 and a hold. */
static void association_response(struct pt_step *t, uint8_t kind, const uint8_t *frame, size_t len)
{
    uint16_t status = pt_get16(frame + 26);
    unsigned aid = pt_get16(frame + 28) & 0x3FFF;

    if (!has_sent(t, kind) || (status == 0 && (aid < 1 || aid > 2007)))
        return;
    pt_exchange(t->record, PT_NONE, PT_NO_KIND, 0);
    notify(t, kind * 2u + 2, status);
    if (status != 0) {
        pt_move(t, 2);
        t->record->hold = pt_comeback(frame, len);
        return;
    }
    if (t->view.joined >= 0)
        t->table[t->view.joined].state = 2;
    pt_move(t, t->s->rsna ? 3 : 4);
}

/* Step 8, an admitted management frame; what is not named does nothing. */
static void act(struct pt_step *t, unsigned subtype, const uint8_t *frame, size_t len)
{
    const uint8_t *body = frame + 24;

    switch (subtype) {
    case PT_ASSOC_REQUEST:
    case PT_REASSOC_REQUEST:
        association_request(t, kind_of(subtype), frame);
        break;
    case PT_ASSOC_RESPONSE:
    case PT_REASSOC_RESPONSE:
        association_response(t, kind_of(subtype), frame, len);
        break;
    case PT_DISASSOC:
        disassociation(t, pt_get16(body));
        break;
    case PT_AUTH:
        authentication(t, body);
        break;
    case PT_DEAUTH:
        deauthentication(t, pt_get16(body));
        break;
    case PT_ACTION:
        pt_query_heard(t, frame, len);
        break;
    default:
        break;
    }
}

/* Steps 6 to 8, once the peer is named. */
static struct pt_answer judge(struct pt_step *t, bool group, const uint8_t *frame, size_t len)
{
    unsigned type = frame[0] >> 2 & 3, subtype = frame[0] >> 4;
    unsigned class = pt_class_of(t->s->role, frame, len);
    unsigned state = t->record ? t->record->state : 1; /* no record counts as State 1 */
    bool management = type == MANAGEMENT;

    t->a.verdict = PT_DISCARD;
    if (!passes(t->s->role, class, state)) {
        if (!group)
            reply_to_class(t, class, state, subtype);
    } else if (!(management && group && (subtype <= PT_REASSOC_RESPONSE || subtype == PT_AUTH))) {
        t->a.verdict = PT_ADMIT;
        if (management)
            act(t, subtype, frame, len);
    }
    t->a.state = t->record ? t->record->state : 0;
    return t->a;
}

/* Steps 1 to 5, in the order of the rules. Only the peer's address is read ahead, so that one
   pass over the table both checks it and finds the peer. */
struct pt_answer pt_receive(const struct pt_settings *s, struct pt_record *table,
                            const uint8_t *frame, size_t frame_len,
                            uint8_t *out, size_t out_len)
{
    uint64_t peer = frame_len >= 16 ? pt_get48(frame + 10) : 0;
    struct pt_view view;

    if (out_len < PT_OUT_LEAST)
        return pt_refuse(PT_BUFFER);
    if (!pt_look(s, table, peer, &view))
        return pt_refuse(PT_ILL_FORMED);
    if (frame_len < 10 || frame_len > PT_FRAME_MAX)
        return pt_refuse(PT_BAD_INPUT);

    unsigned type = frame[0] >> 2 & 3, subtype = frame[0] >> 4;
    if ((frame[0] & 3) != 0 || pt_class_of(s->role, frame, frame_len) == 0)
        return (struct pt_answer){ .verdict = PT_DISCARD };
    if (frame_len < pt_least_length(frame[0]))
        return pt_refuse(PT_BAD_INPUT);

    uint64_t to = pt_get48(frame + 4);
    bool group = to & 1;
    if (!group && to != s->own)
        return pt_refuse(PT_FOREIGN);
    if (type == CONTROL && (subtype == CTS || subtype == ACK))
        return (struct pt_answer){ .verdict = PT_ADMIT };
    if (!pt_valid(peer) || peer == s->own)
        return pt_refuse(PT_BAD_INPUT);
    /* In every role, whatever the peer's state: a broken response is not half believed. */
    if (type == MANAGEMENT && (subtype == PT_ASSOC_RESPONSE || subtype == PT_REASSOC_RESPONSE) &&
        !pt_elements_whole(frame, frame_len))
        return pt_refuse(PT_BAD_INPUT);

    struct pt_step t = pt_begin(s, table, &view, peer, out);
    return judge(&t, group, frame, frame_len);
}
