/* check.h - another maker's log beside our own answers. */
#ifndef CHECK_H
#define CHECK_H

#include "bench.h"

/* Two files by name; gives the exit status. */
int check_log(const char *input, const char *log);

#endif
