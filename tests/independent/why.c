/* why.c - the first rule that decided an event: the rules in their order, each asked of settings, table and event alone.
 *
 * Nothing is carried out here, and the answer of the event is not looked at: the reasons are compared
 * with the answers from outside (tests/comparison/reasons.py).
 */
#include "why.h"

enum { MANAGEMENT = 0, CONTROL = 1, CTS = 12, ACK = 13 };
enum { STATUS_IN = 26, AID_IN = 28, QUERY_LEAST = 28 };

/* An event as the rules look at it: what all of them share, and for a frame its parts. */
struct asked {
    const struct pt_settings *s;
    const struct pt_record *record; /* the peer's, or NULL */
    unsigned state;                 /* of the peer; one without a record counts as State 1 */
    const uint8_t *frame;
    size_t length;
    unsigned type, subtype;
    uint64_t to, from;
};

static struct reason because(const char *word, uint32_t value)
{
    return (struct reason){ .word = word, .value = value };
}

/* Another version, or no class. */
static bool has_no_class(const struct asked *e)
{
    return (e->frame[0] & 3) != 0 || pt_class_of(e->s->role, e->frame, e->length) == 0;
}

static bool is_group(uint64_t address)
{
    return (address & 1) != 0;
}

/* Class 1 passes, class 2 in State 2 and above, class 3 in State 3 and above; in an ad hoc network
   nothing but class 1. */
static bool is_filtered(const struct asked *e)
{
    switch (pt_class_of(e->s->role, e->frame, e->length)) {
    case 1:
        return false;
    case 2:
        return e->s->role == PT_AD_HOC || e->state < 2;
    default:
        return e->s->role == PT_AD_HOC || e->state < 3;
    }
}

static bool under_way(const struct asked *e, enum pt_phase phase, enum pt_kind kind)
{
    return e->record && e->record->phase == phase && e->record->kind == kind;
}

/* Authentication: a request is always answered, refused or indicated, where the role takes requests; an
   answer counts with algorithm 0 and authentication sent. */
static bool authentication_acts(const struct asked *e)
{
    unsigned algorithm = pt_get16(e->frame + 24), transaction = pt_get16(e->frame + 26);

    if (transaction == 1)
        return e->s->role == PT_AP || e->s->role == PT_AD_HOC;
    return transaction == 2 && algorithm == 0 && under_way(e, PT_SENT, PT_AUTHENTICATION);
}

/* A response to what was sent; success with an AID outside 1 to 2007 does nothing. */
static bool response_acts(const struct asked *e)
{
    unsigned aid = pt_get16(e->frame + AID_IN) & 0x3FFF;
    enum pt_kind kind = e->subtype == PT_ASSOC_RESPONSE ? PT_ASSOCIATION : PT_REASSOCIATION;

    return under_way(e, PT_SENT, kind) &&
           (pt_get16(e->frame + STATUS_IN) != 0 || (aid >= 1 && aid <= 2007));
}

/* A query's frame, to our own address and from State 4: a request is answered, a response with the
   identifier of the query that runs ends it. */
static bool query_acts(const struct asked *e)
{
    if (e->length < QUERY_LEAST || e->frame[PT_CATEGORY] != PT_CATEGORY_SA_QUERY ||
        e->to != e->s->own || !e->record || e->state != 4)
        return false;
    if (e->frame[PT_CATEGORY + 1] == PT_QUERY_REQUEST)
        return true;
    return e->frame[PT_CATEGORY + 1] == PT_QUERY_RESPONSE &&
           (e->record->query == PT_QUERY_RUNS || e->record->query == PT_QUERY_DUE) &&
           pt_get16(e->frame + PT_CATEGORY + 2) == e->record->identifier;
}

/* Whether an admitted frame has something to do; what is not named does nothing. */
static bool acts(const struct asked *e)
{
    if (e->type != MANAGEMENT)
        return false;
    switch (e->subtype) {
    case PT_ASSOC_REQUEST:
    case PT_REASSOC_REQUEST:
        return e->s->role == PT_AP;
    case PT_ASSOC_RESPONSE:
    case PT_REASSOC_RESPONSE:
        return response_acts(e);
    case PT_DISASSOC:
        return e->state >= 3;
    case PT_AUTH:
        return authentication_acts(e);
    case PT_DEAUTH:
        return e->state >= 2;
    case PT_ACTION:
        return query_acts(e);
    default:
        return false;
    }
}

/* Steps 6 to 8, of a frame whose peer is named. */
static struct reason judged(const struct asked *e)
{
    bool grouped = e->subtype <= PT_REASSOC_RESPONSE || e->subtype == PT_AUTH;

    if (is_filtered(e))
        return because("class-filter", e->state);
    if (e->type == MANAGEMENT && grouped && is_group(e->to))
        return because("group-rule", 0);
    return because(acts(e) ? "none" : "nothing-to-do", 0);
}

/* Steps 1 to 5: from under 10 octets on. */
static struct reason of_frame(struct asked *e, const struct pt_record *table)
{
    uint32_t length = (uint32_t)e->length;

    if (e->length < 10 || e->length > PT_FRAME_MAX)
        return because("refusal-3", length);
    if (has_no_class(e))
        return because("no-class", 0);
    if (e->length < pt_least_length(e->frame[0]))
        return because("refusal-3", length);
    e->type = e->frame[0] >> 2 & 3;
    e->subtype = e->frame[0] >> 4;
    e->to = pt_get48(e->frame + 4);
    if (!is_group(e->to) && e->to != e->s->own)
        return because("refusal-4", 0);
    if (e->type == CONTROL && (e->subtype == CTS || e->subtype == ACK))
        return because("nothing-to-do", 0);
    e->from = pt_get48(e->frame + 10);
    if (!pt_valid(e->from) || e->from == e->s->own)
        return because("refusal-3", length);
    if (e->type == MANAGEMENT && (e->subtype == PT_ASSOC_RESPONSE || e->subtype == PT_REASSOC_RESPONSE) &&
        !pt_elements_whole(e->frame, e->length))
        return because("refusal-3", length);
    e->record = why_record(table, e->from);
    e->state = e->record ? e->record->state : 1;
    return judged(e);
}

/* A clock step is refused for 0 alone. */
struct reason why_of(const struct pt_settings *s, const struct pt_record *table,
                     const struct input *in, size_t lent)
{
    struct pt_view view;

    if (lent < (in->kind == CLOCK ? PT_CLOCK_OUT_LEAST : PT_OUT_LEAST))
        return because("refusal-1", 0);
    if (!pt_look(s, table, 0, &view))
        return because("refusal-2", 0);
    if (in->kind == FRAME) {
        struct asked e = { .s = s, .frame = in->body, .length = in->length };

        return of_frame(&e, table);
    }
    if (in->kind == CLOCK)
        return because(pt_get16(in->body) == 0 ? "refusal-3" : "none", 0);
    return why_primitive(s, table, in);
}
