/* changes.c - what an event changed: its octets, the rule that decided, and each place that is not as it was.
 *
 * Two records are compared field by field, as the octets between their fields are not said to be anything.
 */
#include "changes.h"

#include <inttypes.h>
#include <string.h>

static bool same_exchange(const struct pt_record *r, const struct pt_record *other)
{
    return r->phase == other->phase && r->kind == other->kind && r->left == other->left;
}

static bool same_query(const struct pt_record *r, const struct pt_record *other)
{
    return r->identifier == other->identifier && r->query == other->query &&
           r->query_left == other->query_left;
}

/* The links behind the count are zero, so that all four may be looked at. */
static bool same_links(const struct pt_record *r, const struct pt_record *other)
{
    return r->link_count == other->link_count &&
           memcmp(r->links, other->links, sizeof r->links) == 0;
}

static bool same_record(const struct pt_record *r, const struct pt_record *other)
{
    return r->address == other->address && r->state == other->state && r->hold == other->hold &&
           same_exchange(r, other) && same_query(r, other) && same_links(r, other);
}

/* A place as it is now. */
static void print_now(int place, const struct pt_record *r)
{
    if (r->state == 0)
        printf("  free %d\n", place);
    else
        bench_place(place, r);
}

void changes_print(const struct bench *b, const struct pt_record *before, struct reason reason)
{
    bench_beside(b);
    if (strcmp(reason.word, "none") != 0)
        printf("  because %s %" PRIu32 "\n", reason.word, reason.value);
    for (int i = 0; i < PT_PLACES; i++)
        if (!same_record(&before[i], &b->table[i]))
            print_now(i, &b->table[i]);
}
