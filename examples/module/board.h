/* board.h - a Cortex-M board without a system: what stands between `main` and the emulator's semihosting. */
#ifndef BOARD_H
#define BOARD_H

#include <stddef.h>
#include <stdint.h>

/* Writes text on the console of the debugger, here the emulator's standard output. */
void board_say(const char *text);

/* Reads from a file of the debugger's machine: a handle, or less than 0; and how many octets came. */
int board_open(const char *path);
size_t board_read(int handle, void *to, size_t octets);

/* Ends the emulator with this status. */
void board_end(int status);

#endif
