/* changes.h - what an event changed, beside its line. */
#ifndef CHANGES_H
#define CHANGES_H

#include "why.h"

/* The lines behind an event's own, of a run that has answered it: the table before the event, and the
   rule that decided it by that table. */
void changes_print(const struct bench *b, const struct pt_record *before, struct reason reason);

#endif
