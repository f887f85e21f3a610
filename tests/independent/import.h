/* import.h - captures read into bench records. */
#ifndef IMPORT_H
#define IMPORT_H

#include "bench.h"

/* Two files by name; gives the exit status. */
int import_capture(const char *settings, const char *capture);

#endif
