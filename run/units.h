/* What the commands that move units have in common: what is asked of them, and the units on standard input and output. */

#ifndef NOLTHEWYR_UNITS_H
#define NOLTHEWYR_UNITS_H

#include <getopt.h>

#include "rangerun.h"

/* What `write` or `read` is asked for, and the units of it. */
typedef struct nolthewyr_transfer {
    bool binary;     /* 8 bytes a unit, the lowest first; else decimal numbers, with blanks or line ends between them */
    bool unlocked;   /* reads without taking the window */
    uint64_t limit;  /* in nanoseconds, 0 for none */
    nolthewyr_edges window;
    uint64_t *units; /* to be freed */
    uint64_t count;
} nolthewyr_transfer;

/* Each gives 0, or says on standard error what is wrong and gives the exit status. The first sets what stands on the command line, of which
 * these options are known; the second reads all of standard input; the third makes room for the units of the window; the fourth writes
 * them to standard output, which is closed then. */
int nolthewyr_transfer_set(nolthewyr_transfer *transfer, const struct option *options, int argc, char **argv);
int nolthewyr_units_input(nolthewyr_transfer *transfer);
int nolthewyr_units_room(nolthewyr_transfer *transfer);
int nolthewyr_units_output(const nolthewyr_transfer *transfer);

/* Whether there are as many units as the window has; if not, says so on standard error. */
bool nolthewyr_units_fit(const nolthewyr_transfer *transfer);

#endif
