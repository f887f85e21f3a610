/* query.c - SA Query: whether a request to join may be forged is asked of the peer that has joined. */
#include "rules.h"

enum { STATUS_REFUSED_TEMPORARILY = 30 };
enum { QUERY_LEAST = 28 }; /* up to the end of the identifier */
enum { REPORT_RETRY = 4, REPORT_TIMED_OUT = 5 };

static bool runs(const struct pt_record *r)
{
    return r->query == PT_QUERY_RUNS || r->query == PT_QUERY_DUE;
}

/* A query, or the mark of one that timed out, is at an AP and in State 4 only; one that runs has 1
   TU to the maximum left. The identifier may be any. */
bool pt_query_fits(const struct pt_settings *s, const struct pt_record *r)
{
    if (r->query == PT_NO_QUERY)
        return r->query_left == 0;
    if (r->query > PT_QUERY_TIMED_OUT || s->role != PT_AP || r->state != 4)
        return false;
    return runs(r) ? r->query_left - 1 < s->query_maximum : r->query_left == 0;
}

/* No query and no mark; the identifier is kept. */
void pt_query_end(struct pt_record *r)
{
    r->query = PT_NO_QUERY;
    r->query_left = 0;
}

/* Whether an AP denies a (re)association request for now: the second edition with protection, State
   4, and no query that has timed out. */
bool pt_query_denies(const struct pt_step *t)
{
    return t->s->edition == 2 && t->s->protection == 1 && t->record->state == 4 &&
           t->record->query != PT_QUERY_TIMED_OUT;
}

/* Status 30, with what is left of the query. Where none runs one starts, at the maximum, and with
   the next identifier, which comes to 0 behind 65,535; its request is due at once. */
void pt_query_deny(struct pt_step *t, uint8_t kind)
{
    struct pt_record *r = t->record;

    if (!runs(r)) {
        r->identifier = (uint16_t)(r->identifier + 1);
        r->query = PT_QUERY_DUE;
        r->query_left = t->s->query_maximum;
    }
    pt_write_comeback(t, kind, STATUS_REFUSED_TEMPORARILY, r->query_left);
}

/* Primitive 11: the query's request, which is then no longer due. All requests of one query have its
   identifier. */
void pt_query_ask(struct pt_step *t)
{
    pt_write_query(t, PT_QUERY_REQUEST, t->record->identifier);
    t->record->query = PT_QUERY_RUNS;
}

/* An Action frame that was admitted. A query frame acts if it is long enough, to our own address and
   from a peer in State 4: a request is answered, wherever there is State 4 and under any settings; a response
   with the identifier of the query that runs ends it. */
void pt_query_heard(struct pt_step *t, const uint8_t *frame, size_t len)
{
    if (len < QUERY_LEAST || frame[PT_CATEGORY] != PT_CATEGORY_SA_QUERY ||
        pt_get48(frame + 4) != t->s->own || !t->record || t->record->state != 4)
        return;

    uint16_t identifier = pt_get16(frame + PT_CATEGORY + 2);
    if (frame[PT_CATEGORY + 1] == PT_QUERY_REQUEST)
        pt_write_query(t, PT_QUERY_RESPONSE, identifier);
    else if (frame[PT_CATEGORY + 1] == PT_QUERY_RESPONSE && runs(t->record) &&
             identifier == t->record->identifier)
        pt_query_end(t->record);
}

/* Lowers what is left of a query, and says what to report: 5 where it falls to 0, which leaves the
   mark; 4 where a multiple of the retry time since the query's start is reached on the way, which
   makes a request due; else 0. */
uint8_t pt_query_age(const struct pt_settings *s, struct pt_record *r, uint32_t step)
{
    if (!runs(r))
        return 0;
    if (r->query_left <= step) {
        r->query = PT_QUERY_TIMED_OUT;
        r->query_left = 0;
        return REPORT_TIMED_OUT;
    }

    uint32_t passed = s->query_maximum - r->query_left;
    r->query_left -= step;
    if ((passed + step) / s->query_retry == passed / s->query_retry)
        return 0;
    r->query = PT_QUERY_DUE;
    return REPORT_RETRY;
}
