/* What a server over libfabric says of its runs on standard error: each that opens, closes, is refused or goes without closing, with the address
 * of its connection where there is one. Addresses are the kernel's; the process and its host are the run's own words. */

#ifndef NOLTHEWYR_SERVING_LOG_H
#define NOLTHEWYR_SERVING_LOG_H

#include <stdbool.h>

/* Whether nothing is to be said; and whether runs come over a network. If not, they are processes of this machine, and what libfabric's provider
 * shm leaves of one that was killed is removed from /dev/shm. */
void nolthewyr_log_begun(bool quiet, bool over_network);

/* A run has sent a line: `WHAT: ADDRESS: WHO`, or `WHAT: ADDRESS: WHO: WHY`. The address is that of its end of the connection, empty if it does not
 * know it. */
void nolthewyr_log_heard(const char *said);

/* Looks which connections have come and gone, when all lines are heard that have come. It costs some microseconds a connection. */
void nolthewyr_log_looked(void);

#endif
