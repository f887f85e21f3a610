/* play.h - a stream played over the library by single calls or many events in one, over the independent functions, or over nothing at all. */
#ifndef PLAY_H
#define PLAY_H

#include "stream.h"

enum player { PLAY_NOTHING, PLAY_LIBRARY, PLAY_INDEPENDENT, PLAY_RUN };

/* Plays setup and events over both and compares every answer, all octets written and the tables; then the events by `peer_run_octets`, with
   the answers and the table of the single calls. False at the first difference, with a line that says where. Keeps the tables that the setup
   leaves, for `play`. */
bool play_compared(const char *name, const struct stream *stream);

/* Plays the events, from the tables that the setup left, this many times. */
void play(enum player player, const struct stream *stream, unsigned rounds);

#endif
