/* shot.c - single shots: a table drawn for one call. */
#include "draw.h"
#include "runs.h"

#include <string.h>

/* Any octets, or zeros with a few octets changed. */
static void random_table(struct chance *c, struct call *call)
{
    call->table_kind = TABLE_RANDOM;
    if (percent(c, 50)) {
        draw_octets(c, call->table, PEER_TABLE_OCTETS);
        return;
    }
    memset(call->table, 0, PEER_TABLE_OCTETS);
    for (unsigned n = 1 + below(c, 12); n > 0; n--)
        call->table[below(c, PEER_TABLE_OCTETS)] = (uint8_t)below(c, 256);
}

static void other_length(struct chance *c, struct call *call)
{
    static const size_t lengths[] = { 0, 1, 47, 48, 768, 1024, 1488, 1535, 1537, 1584, 1600 };

    call->table_kind = TABLE_OF_OTHER_LENGTH;
    call->table_octets = ONE_OF(c, lengths);
    memset(call->table + PEER_TABLE_OCTETS, 0, TABLE_MOST - PEER_TABLE_OCTETS);
}

void run_shot(unsigned long number, struct chance *c)
{
    static struct call call;
    unsigned sort = below(c, 100);

    call.settings = draw_settings(c, (uint8_t)(PEER_AP + below(c, 3)));
    lend_usual(&call, c);
    call.table_kind = TABLE_DRAWN;
    call.source = "the single shots";
    call.index = number + 1;
    draw_table(c, &call);
    if (sort < 35) {
        call.table_kind = TABLE_SPOILT;
        spoil_table(c, &call.settings, call.table);
    } else if (sort < 42) {
        random_table(c, &call);
    } else if (sort < 47) {
        other_length(c, &call);
    }
    draw_event(c, &call);
    if (percent(c, 6))
        spoil_settings(c, &call.settings);
    if (percent(c, 6))
        draw_lengths(c, &call);
    checked(&call, c);
}
