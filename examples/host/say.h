/* say.h - words and numbers on the way out. The scene says everything by these; where the text goes is each program's own `say`. */
#ifndef SAY_H
#define SAY_H

#include <stdint.h>

/* Brings text to the user: standard output on a computer (main.c), the debugger's console on a board (examples/module/main.c). */
void say(const char *text);

/* A number in decimals; an address as six octets in hexadecimals; the start of a line, with its speaker. */
void say_number(uint32_t number);
void say_address(uint64_t address);
void say_who(const char *name);

#endif
