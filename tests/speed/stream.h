/* stream.h - event streams for the measurement: made once from a fixed seed, then played again and again. */
#ifndef STREAM_H
#define STREAM_H

#include "forms.h"

enum { STREAM_EVENTS = 2048, SETUP_MOST = 512, FRAME_OCTETS = 4 * 1024 * 1024 };

enum event_kind { EVENT_FRAME, EVENT_PRIMITIVE, EVENT_CLOCK, EVENT_LINKS };

struct event {
    enum event_kind kind;
    uint8_t primitive;
    uint16_t number; /* code or clock step */
    uint32_t length; /* of the frame, or how many links */
    uint64_t address;
    const uint8_t *frame;
    uint64_t links[PT_LINKS];
};

/* The setup brings the table to where the stream starts; only the events after it are measured. */
struct stream {
    peer_settings settings;
    size_t setup, count;
    struct event events[SETUP_MOST + STREAM_EVENTS + 16];
};

extern const char *const stream_names[];
extern const size_t stream_total;

/* Makes the stream of this name; false where there is none. */
bool stream_make(const char *name, struct stream *stream);

#endif
