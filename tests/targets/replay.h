/* replay.h - recorded calls made again, on a processor with or without a system, and compared with what was recorded. */
#ifndef REPLAY_H
#define REPLAY_H

#include <stddef.h>
#include <stdint.h>

/* From the place where it runs: some of the record's next octets, at most so many; 0 at its end. */
size_t replay_read(uint8_t *to, size_t most);

/* And a text for the user. */
void replay_say(const char *text);

/* Makes every call. Says how many were made and the deepest stack, or the first difference. Gives 0, or 1 at a difference. */
int replay(void);

#endif
