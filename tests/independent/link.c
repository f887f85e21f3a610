/* link.c - devices with several links: which links fit, and primitive 12, which names them. */
#include "rules.h"

#include <string.h>

/* True where one of the links before a place of the list is the one there. */
static bool given_before(const uint64_t *links, size_t place)
{
    for (size_t i = 0; i < place; i++)
        if (links[i] == links[place])
            return true;
    return false;
}

/* Links are at an AP only, four at most, each valid, not our own, not the device's and given once. How
   they stand to other records is not looked at here. */
bool pt_links_fit(const struct pt_settings *s, const struct pt_record *r)
{
    if (r->link_count > PT_LINKS || (r->link_count > 0 && s->role != PT_AP))
        return false;
    for (size_t i = 0; i < PT_LINKS; i++) {
        uint64_t link = r->links[i];

        if (i >= r->link_count ? link != 0 : !pt_valid(link) || link == s->own ||
                                             link == r->address || given_before(r->links, i))
            return false;
    }
    return true;
}

/* True where some record but the device's own has the address, as its device's or as a link's. */
static bool used_elsewhere(const struct pt_record *table, uint64_t device, uint64_t address)
{
    for (int i = 0; i < PT_PLACES; i++)
        if (table[i].address != device && pt_has_address(&table[i], address))
            return true;
    return false;
}

/* Refusal 3 of a list: too long, or with an address that is invalid, our own, the device's, given
   twice or in use elsewhere. */
static bool list_fits(const struct pt_settings *s, const struct pt_record *table, uint64_t device,
                      const uint64_t *links, size_t count)
{
    if (count > PT_LINKS)
        return false;
    for (size_t i = 0; i < count; i++)
        if (!pt_valid(links[i]) || links[i] == s->own || links[i] == device ||
            given_before(links, i) || used_elsewhere(table, device, links[i]))
            return false;
    return true;
}

/* Refusals 1, 2, 3, 5, 7, 6. The links named take the place of those before; none takes them away.
   Exchange and hold stay. A device without a record gets one, but not for a list of none. */
struct pt_answer pt_link(const struct pt_settings *s, struct pt_record *table, uint64_t device,
                         const uint64_t *links, size_t count, size_t out_len)
{
    struct pt_view view;

    if (out_len < PT_OUT_LEAST)
        return pt_refuse(PT_BUFFER);
    if (!pt_look(s, table, device, &view))
        return pt_refuse(PT_ILL_FORMED);
    if (!pt_valid(device) || device == s->own || view.linked ||
        !list_fits(s, table, device, links, count))
        return pt_refuse(PT_BAD_INPUT);
    if (s->role != PT_AP)
        return pt_refuse(PT_WRONG_ROLE);

    struct pt_step t = pt_begin(s, table, &view, device, NULL);
    if (t.record && t.record->state != 1)
        return pt_refuse(PT_NO_MATCH);
    if (!t.record && count > 0) {
        if (view.free < 0)
            return pt_refuse(PT_FULL);
        pt_new_record(&t);
    }
    if (!t.record)
        return t.a;
    memset(t.record->links, 0, sizeof t.record->links);
    memcpy(t.record->links, links, count * sizeof *links);
    t.record->link_count = (uint8_t)count;
    t.a.state = t.record->state;
    return t.a;
}
