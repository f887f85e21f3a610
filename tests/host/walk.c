/* walk.c - long walks: half the calls are what brings the peer on from where it stands, so that every state and exchange is reached. */
#include "draw.h"
#include "runs.h"

#include <string.h>

enum { DATA = 2, MANAGEMENT = 0 };

static void next_frame(struct chance *c, struct call *call, unsigned type, unsigned subtype, size_t length)
{
    call->kind = CALL_RECEIVE;
    draw_octets(c, call->frame, length);
    call->frame[0] = (uint8_t)(type << 2 | subtype << 4);
    pt_put48(call->frame + 4, own_of(call));
    pt_put48(call->frame + 10, draw_sender(c, call, call->address));
    pt_put16(call->frame + 24, 0);
    pt_put16(call->frame + 26, subtype == PT_AUTH ? draw_transaction(c, call->settings.role) : 0);
    pt_put16(call->frame + 28, subtype == PT_AUTH ? 0 : 0xC001);
    call->frame_octets = length;
}

static void next_primitive(struct call *call, uint8_t primitive, uint16_t code)
{
    call->kind = CALL_ASK;
    call->primitive = primitive;
    call->number = code;
}

/* A query frame: a response of the peer's own identifier, most often, or a request. */
static void next_query(struct chance *c, struct call *call, uint8_t action, const struct pt_record *r)
{
    next_frame(c, call, MANAGEMENT, PT_ACTION, PEER_QUERY_OCTETS);
    call->frame[24] = PEER_CATEGORY_SA_QUERY;
    call->frame[25] = action;
    pt_put16(call->frame + 26, (uint16_t)(percent(c, 80) ? r->identifier : r->identifier + 1));
}

/* What may come of a query that runs; false where the peer does something else. */
static bool on_query(struct chance *c, struct call *call, const struct pt_record *r)
{
    if (r->query == PT_QUERY_DUE && percent(c, 40))
        next_primitive(call, PEER_SA_QUERY_REQUEST, 0);
    else if (r->query == PT_QUERY_RUNS && percent(c, 30))
        next_query(c, call, PEER_ACTION_QUERY_RESPONSE, r);
    else
        return false;
    return true;
}

static void on_at_ap(struct chance *c, struct call *call, const struct pt_record *r)
{
    static const uint8_t answers[] = { 0, PEER_AUTHENTICATE_RESPONSE, PEER_ASSOCIATE_RESPONSE, PEER_REASSOCIATE_RESPONSE };
    bool again = percent(c, 40);

    if (r->phase == PT_AWAITING)
        next_primitive(call, PEER_TRANSMIT_REPORT, PEER_ACKNOWLEDGED);
    else if (on_query(c, call, r))
        return;
    else if (r->phase == PT_ASKED)
        next_primitive(call, answers[r->kind], percent(c, 75) ? PEER_STATUS_SUCCESS : PEER_STATUS_TRY_LATER);
    else if (r->state < 2 && percent(c, 25))
        draw_named(c, call);
    else if (r->state < 2)
        next_frame(c, call, MANAGEMENT, PT_AUTH, 30);
    else if (r->state == 2 || again)
        next_frame(c, call, MANAGEMENT, again ? PT_REASSOC_REQUEST : PT_ASSOC_REQUEST, 40);
    else if (r->state == 3)
        next_primitive(call, PEER_SET_PROTECTION, 0);
    else
        next_frame(c, call, DATA, below(c, 13), 40);
}

static void on_at_station(struct chance *c, struct call *call, const struct pt_record *r)
{
    static const uint8_t answers[] = { 0, PT_AUTH, PT_ASSOC_RESPONSE, PT_REASSOC_RESPONSE };

    if (r->phase == PT_SENT && percent(c, 85))
        next_frame(c, call, MANAGEMENT, answers[r->kind], 30);
    else if (r->state < 2)
        next_primitive(call, PEER_AUTHENTICATE_REQUEST, 0);
    else if (r->state == 2 || percent(c, 30))
        next_primitive(call, percent(c, 50) ? PEER_ASSOCIATE_REQUEST : PEER_REASSOCIATE_REQUEST, 0);
    else if (r->state == 3)
        next_primitive(call, PEER_SET_PROTECTION, 0);
    else if (percent(c, 30))
        next_query(c, call, PEER_ACTION_QUERY_REQUEST, r);
    else
        next_frame(c, call, DATA, below(c, 13), 40);
}

/* Either asks, both at once too: a request is heard while ours is under way. Then data and actions, with any To DS and From DS. */
static void on_ad_hoc(struct chance *c, struct call *call, const struct pt_record *r)
{
    if (r->phase == PT_ASKED && percent(c, 70))
        next_primitive(call, PEER_AUTHENTICATE_RESPONSE, percent(c, 75) ? PEER_STATUS_SUCCESS : PEER_STATUS_UNSPECIFIED);
    else if (r->phase == PT_SENT || r->state < 2 || percent(c, 30))
        next_frame(c, call, MANAGEMENT, PT_AUTH, 30);
    else if (percent(c, 30))
        next_frame(c, call, MANAGEMENT, percent(c, 50) ? PT_ACTION : PT_DEAUTH, 30);
    else
        next_frame(c, call, DATA, below(c, 13), 40);
    if (r->phase == PT_NONE && percent(c, 30))
        next_primitive(call, PEER_AUTHENTICATE_REQUEST, 0);
}

static void step(struct chance *c, struct call *call, unsigned peers)
{
    static void (*const on[])(struct chance *, struct call *, const struct pt_record *) = { on_at_ap, on_at_station, on_ad_hoc };
    struct pt_record r;

    if (percent(c, 30)) {
        draw_event(c, call);
        if (call->kind == CALL_PASS && percent(c, 80))
            call->number = (uint16_t)(1 + below(c, 60));
        return;
    }
    call->address = pool_address(below(c, peers));
    r = standing(call, call->address);
    on[call->settings.role - PEER_AP](c, call, &r);
    call->out_octets = draw_out(c, call->kind);
}

/* Now and then a well-formed table as it might come back from storage, else an empty one. */
void run_walk(unsigned long number, unsigned long calls, struct chance *c)
{
    static struct call call;
    unsigned peers = 1 + below(c, POOL);

    memset(&call, 0, sizeof call);
    call.settings = draw_settings(c, (uint8_t)(PEER_AP + number % 3));
    lend_usual(&call, c);
    call.table_kind = TABLE_WALK;
    call.source = "the walks";
    if (percent(c, 25))
        draw_table(c, &call);
    for (unsigned long i = 0; i < calls; i++) {
        call.index = number * calls + i + 1;
        step(c, &call, peers);
        checked(&call, c);
    }
}
