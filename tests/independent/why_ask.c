/* why_ask.c - the first refusal of a primitive: number by number in the order 3, 5, 9, 7, 8, 6, each over all primitives. */
#include "why.h"

enum { NAME_LINKS = 12 };

/* A primitive as its refusals look at it. */
struct call {
    const struct pt_settings *s;
    const struct pt_record *table;
    const struct pt_record *record; /* the device's, or NULL */
    unsigned primitive, code;
    uint64_t peer;
    unsigned state; /* one without a record counts as State 1 */
    size_t count;   /* primitive 12: its links */
    const uint8_t *body;
};

const struct pt_record *why_record(const struct pt_record *table, uint64_t address)
{
    for (int i = 0; i < PT_PLACES; i++)
        if (table[i].state != 0 && pt_has_address(&table[i], address))
            return &table[i];
    return NULL;
}

/* An address that is some record's link. */
static bool is_link(const struct pt_record *table, uint64_t address)
{
    const struct pt_record *found = why_record(table, address);

    return found && found->address != address;
}

/* A link of primitive 12 that is invalid, our own, given twice (the device's is so too) or in use
   elsewhere. */
static bool bad_link(const struct call *c, size_t place)
{
    uint64_t link = bench_link_in(c->body, place);
    const struct pt_record *found = why_record(c->table, link);

    for (size_t i = 0; i < place; i++)
        if (bench_link_in(c->body, i) == link)
            return true;
    return !pt_valid(link) || link == c->s->own || link == c->peer || (found && found->address != c->peer);
}

/* 3: unknown primitive, or with a code not allowed; for primitive 12 a count over 4 or a bad link. */
static bool bad_call(const struct call *c)
{
    switch (c->primitive) {
    case 1: case 4: case 5: case 9: case 11:
        return c->code != 0;
    case 3: case 6:
        return c->code == 0;
    case 10:
        return c->code > 1;
    case 2: case 7: case 8:
        return false;
    case NAME_LINKS:
        for (size_t i = 0; i < c->count && i < PT_LINKS; i++)
            if (bad_link(c, i))
                return true;
        return c->count > PT_LINKS;
    default:
        return true;
    }
}

/* 5: 1, 4 and 5 are a station's, 2, 7, 8, 10, 11 and 12 an AP's, 3, 6 and 9 both's; in an ad hoc network
   there are 1, 2 and 3. */
static bool wrong_role(const struct call *c)
{
    unsigned p = c->primitive;

    if (c->s->role == PT_AD_HOC)
        return p >= 4;
    if (p == 3 || p == 6 || p == 9)
        return false;
    return (p == 1 || p == 4 || p == 5) != (c->s->role == PT_STATION);
}

static bool associating(const struct pt_record *table)
{
    for (int i = 0; i < PT_PLACES; i++)
        if (table[i].phase != PT_NONE && table[i].kind != PT_AUTHENTICATION)
            return true;
    return false;
}

/* 9: this record has an exchange; for 4 and 5, or any has a (re)association. */
static bool busy(const struct call *c)
{
    if (c->primitive != 1 && c->primitive != 4 && c->primitive != 5)
        return false;
    return (c->record && c->record->phase != PT_NONE) || (c->primitive != 1 && associating(c->table));
}

static bool other_joined(const struct call *c)
{
    for (int i = 0; i < PT_PLACES; i++)
        if (c->table[i].state >= 3 && &c->table[i] != c->record)
            return true;
    return false;
}

static bool is_asked(const struct call *c, enum pt_kind kind)
{
    return c->record && c->record->phase == PT_ASKED && c->record->kind == kind;
}

/* 7: what the primitive needs is not there. */
static bool no_match(const struct call *c)
{
    switch (c->primitive) {
    case 2:
        return !is_asked(c, PT_AUTHENTICATION);
    case 4:
        return other_joined(c);
    case 7:
        return !is_asked(c, PT_ASSOCIATION);
    case 8:
        return !is_asked(c, PT_REASSOCIATION);
    case 9:
        return c->state < 3;
    case 10:
        return !c->record || c->record->phase != PT_AWAITING;
    case 11:
        return !c->record || c->record->query != PT_QUERY_DUE;
    case NAME_LINKS:
        return c->state != 1;
    default:
        return false;
    }
}

static uint32_t hold_of(const struct call *c)
{
    return c->record && (c->primitive == 4 || c->primitive == 5) ? c->record->hold : 0;
}

/* 6: a new record is needed, by 1 or by links, and no place is free. */
static bool no_place(const struct call *c)
{
    if (c->record || !(c->primitive == 1 || (c->primitive == NAME_LINKS && c->count > 0)))
        return false;
    for (int i = 0; i < PT_PLACES; i++)
        if (c->table[i].state == 0)
            return false;
    return true;
}

struct reason why_primitive(const struct pt_settings *s, const struct pt_record *table,
                            const struct input *in)
{
    bool links = in->kind == LINKS;
    struct call c = { .s = s, .table = table, .body = in->body,
                      .primitive = links ? NAME_LINKS : in->body[0] == NAME_LINKS ? 0 : in->body[0],
                      .peer = pt_get48(in->body + (links ? 0 : 1)),
                      .code = links ? 0 : pt_get16(in->body + 7), .count = links ? in->body[6] : 0 };

    c.record = why_record(table, c.peer);
    c.state = c.record ? c.record->state : 1;
    if (bad_call(&c) || !pt_valid(c.peer) || c.peer == s->own || is_link(table, c.peer))
        return (struct reason){ "refusal-3", 0 };
    if (wrong_role(&c))
        return (struct reason){ "refusal-5", 0 };
    if (busy(&c))
        return (struct reason){ "refusal-9", 0 };
    if (no_match(&c))
        return (struct reason){ "refusal-7", c.state };
    if (hold_of(&c) > 0)
        return (struct reason){ "refusal-8", hold_of(&c) };
    return (struct reason){ no_place(&c) ? "refusal-6" : "none", 0 };
}
