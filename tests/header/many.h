/* many.h - many events in one call, tried with the header's small functions for it. */
#ifndef MANY_H
#define MANY_H

/* How many faults there are; each has had its line. */
int many_faults(void);

#endif
