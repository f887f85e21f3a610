/* table.c - the table: the well-formedness check, changes of one record, the clock step. */
#include "rules.h"

enum { REPORT_OCTETS = 8 }; /* what a clock step writes for each report */

/* Times that a setting may have: 1 to 65,535 TU. */
static bool in_range(uint32_t time)
{
    return time - 1 < PT_TIME_MAX;
}

/* Settings in range: role 1 to 3, RSNA 0 or 1, own address valid, edition 1 or 2, protection 0 or
   1, and all four times; in an ad hoc network its address is valid, and may be our own. */
static bool settings_fit(const struct pt_settings *s)
{
    return s->role >= PT_AP && s->role <= PT_AD_HOC && s->rsna <= 1 && pt_valid(s->own) &&
           (s->role != PT_AD_HOC || pt_valid(s->network)) && in_range(s->auth_timeout) &&
           in_range(s->assoc_timeout) && (s->edition == 1 || s->edition == 2) && s->protection <= 1 &&
           in_range(s->query_retry) && in_range(s->query_maximum);
}

/* A free place has every field zero. */
static bool is_free(const struct pt_record *r)
{
    return r->address == 0 && (r->left | r->hold | r->query_left) == 0 && r->identifier == 0 &&
           (r->state | r->phase | r->kind | r->query | r->link_count) == 0 &&
           (r->links[0] | r->links[1] | r->links[2] | r->links[3]) == 0;
}

/* The exchange fits the role and the state, and its time left fits the exchange. */
static bool exchange_fits(uint8_t role, const struct pt_record *r)
{
    if (r->phase == PT_NONE)
        return r->kind == PT_NO_KIND && r->left == 0;
    if (r->kind < PT_AUTHENTICATION || r->kind > PT_REASSOCIATION)
        return false;
    /* A (re)association exchange stands in State 2 or above only. */
    if (r->kind != PT_AUTHENTICATION && r->state < 2)
        return false;
    /* In an ad hoc network there is authentication alone, asked or sent. */
    if (role == PT_AD_HOC && r->kind != PT_AUTHENTICATION)
        return false;
    /* What we have sent, not as an AP, has 1 to 65,535 TU left. */
    if (r->phase == PT_SENT)
        return role != PT_AP && in_range(r->left);
    /* What is asked, not of a station, or awaits an acknowledgement (at an AP, not authentication)
       has no time that runs. */
    return r->left == 0 && (r->phase == PT_ASKED ? role != PT_STATION :
                            r->phase == PT_AWAITING && role == PT_AP && r->kind != PT_AUTHENTICATION);
}

/* What one record that is not free must satisfy, apart from the other records. There are no states
   over 2 in an ad hoc network. */
static bool record_fits(const struct pt_settings *s, const struct pt_record *r)
{
    return r->state >= 1 && r->state <= (s->role == PT_AD_HOC ? 2 : 4) && pt_valid(r->address) &&
           r->address != s->own && (s->role != PT_AP || r->hold == 0) && exchange_fits(s->role, r) && pt_query_fits(s, r) &&
           pt_links_fit(s, r);
}

/* Two records have no address in common, of a device or of a link. A free place has none. */
static bool apart(const struct pt_record *r, const struct pt_record *other)
{
    if (pt_has_address(other, r->address))
        return false;
    for (int i = 0; i < r->link_count; i++)
        if (pt_has_address(other, r->links[i]))
            return false;
    return true;
}

bool pt_look(const struct pt_settings *s, const struct pt_record *table, uint64_t peer,
             struct pt_view *view)
{
    int joined = 0, associating = 0;

    if (!settings_fit(s))
        return false;
    *view = (struct pt_view){ .peer = -1, .free = -1, .joined = -1 };
    for (int i = 0; i < PT_PLACES; i++) {
        const struct pt_record *r = &table[i];

        if (is_free(r)) {
            if (view->free < 0)
                view->free = i;
            continue;
        }
        if (!record_fits(s, r))
            return false;
        for (int j = 0; j < i; j++)
            if (!apart(r, &table[j]))
                return false;
        /* No address stands twice, so the order of the search makes no difference. */
        if (pt_has_address(r, peer)) {
            view->peer = i;
            view->linked = r->address != peer;
        }
        if (r->state >= 3) {
            view->joined = i;
            joined++;
        }
        associating += r->kind >= PT_ASSOCIATION;
    }
    view->associating = associating > 0;
    /* A station: at most one record in State 3 or 4, at most one (re)association under way. */
    return s->role == PT_AP || (joined <= 1 && associating <= 1);
}

struct pt_step pt_begin(const struct pt_settings *s, struct pt_record *table,
                        const struct pt_view *view, uint64_t peer, uint8_t *out)
{
    return (struct pt_step){
        .s = s, .table = table, .view = *view, .peer = peer, .out = out,
        .record = view->peer < 0 ? NULL : &table[view->peer],
    };
}

/* Sets the peer's state. An AP tells the distribution system "joined" on a rise from State 1-2
   to 3-4 and "left" on the fall back. A query, or its mark, is of State 4 only. */
void pt_move(struct pt_step *t, uint8_t state)
{
    bool before = t->record->state >= 3, after = state >= 3;

    t->record->state = state;
    if (state != 4)
        pt_query_end(t->record);
    if (t->s->role == PT_AP && before != after)
        t->a.ds = after ? PT_DS_JOINED : PT_DS_LEFT;
}

/* A new record takes the lowest free place, in its one fixed form: State 1, nothing else. */
void pt_new_record(struct pt_step *t)
{
    t->record = &t->table[t->view.free];
    t->record->address = t->peer;
    t->record->state = 1;
}

/* Puts an exchange in the place of any other; phase none ends the one under way. */
void pt_exchange(struct pt_record *r, enum pt_phase phase, uint8_t kind, uint32_t left)
{
    r->phase = (uint8_t)phase;
    r->kind = kind;
    r->left = left;
}

/* One report: place, kind, address. */
static void write_report(uint8_t *p, int place, uint8_t kind, uint64_t address)
{
    p[0] = (uint8_t)place;
    p[1] = kind;
    pt_put48(p + 2, address);
}

/* Lowers the time left of an exchange; where that falls to 0 the exchange ends, and its kind is
   what to report. Authentication keeps the state, the others set State 2. No exchange of an AP has
   a time, so there is nothing to tell the distribution system. */
static uint8_t age_exchange(struct pt_record *r, uint32_t step)
{
    uint8_t kind = r->kind;

    if (r->left == 0)
        return 0;
    if (r->left > step) {
        r->left -= step;
        return 0;
    }
    if (kind != PT_AUTHENTICATION)
        r->state = 2;
    pt_exchange(r, PT_NONE, PT_NO_KIND, 0);
    return kind;
}

/* A record in State 1 without an exchange, with hold 0 and without links has nothing left to keep. */
static bool is_idle(const struct pt_record *r)
{
    return r->state == 1 && r->phase == PT_NONE && r->hold == 0 && r->link_count == 0;
}

/* Refusals 1, 2, 3; then one pass in rising place. What befalls one record does not touch another,
   so lowering, ending and freeing record by record comes to the order the rules give. No exchange
   of an AP has a time, and a query is at an AP only: a record has one report at most. */
struct pt_answer pt_clock(const struct pt_settings *s, struct pt_record *table,
                          uint16_t step, uint8_t *out, size_t out_len)
{
    struct pt_view view;
    unsigned written = 0;

    if (out_len < PT_CLOCK_OUT_LEAST)
        return pt_refuse(PT_BUFFER);
    if (!pt_look(s, table, 0, &view))
        return pt_refuse(PT_ILL_FORMED);
    if (step == 0)
        return pt_refuse(PT_BAD_INPUT);

    for (int i = 0; i < PT_PLACES; i++) {
        struct pt_record *r = &table[i];
        uint8_t kind = s->role == PT_AP ? pt_query_age(s, r, step) : age_exchange(r, step);

        r->hold -= r->hold < step ? r->hold : step;
        if (kind != 0) {
            write_report(out + written, i, kind, r->address);
            written += REPORT_OCTETS;
        }
        if (is_idle(r))
            *r = (struct pt_record){ 0 };
    }
    return (struct pt_answer){ .written = (uint16_t)written };
}
