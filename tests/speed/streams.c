/* streams.c - the streams by name. */
#include "make.h"

#include <string.h>

/* In the order of the names below. */
static const struct {
    void (*make)(struct maker *, unsigned);
    uint8_t role;
    uint8_t peers;
} makers[] = {
    { make_office_ap, PEER_AP, 8 },           { make_office_ap, PEER_AP, 32 },
    { make_office_station, PEER_STATION, 8 }, { make_office_station, PEER_STATION, 32 },
    { make_storm_ap, PEER_AP, 16 },           { make_storm_station, PEER_STATION, 8 },
    { make_joins_ap, PEER_AP, 40 },           { make_joins_station, PEER_STATION, 8 },
    { make_clock_ap, PEER_AP, 32 },           { make_clock_station, PEER_STATION, 32 },
    { make_forged_ap, PEER_AP, 16 },          { make_ad_hoc, PEER_AD_HOC, 8 },
    { make_tablets_ap, PEER_AP, 32 },
};

const char *const stream_names[] = { "office-8-ap", "office-32-ap", "office-8-station", "office-32-station", "storm-ap",
                                     "storm-station", "joins-ap", "joins-station", "clock-32-ap", "clock-32-station",
                                     "forged-ap", "ad-hoc-8", "tablets-32-ap" };
const size_t stream_total = sizeof stream_names / sizeof *stream_names;

bool stream_make(const char *name, struct stream *stream)
{
    for (size_t i = 0; i < stream_total; i++)
        if (strcmp(name, stream_names[i]) == 0) {
            struct maker m = maker_of(stream, i + 1, makers[i].role);

            makers[i].make(&m, makers[i].peers);
            return true;
        }
    return false;
}
