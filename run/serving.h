/* How a memory server makes its words and units and lets runs reach them. It takes no part in the lock. */

#ifndef NOLTHEWYR_SERVING_H
#define NOLTHEWYR_SERVING_H

#include <signal.h>

#include "server_file.h"

typedef struct nolthewyr_serving {
    /* Makes words and units, all zero, and sets in `server`, whose identity is there, how they are reached. False if it cannot, and `error` says
     * why. */
    bool (*begin)(nolthewyr_server *server, char *error);
    /* Serves until a signal sets `ended`. The signals that do so are blocked but for the set `waiting`, with which it may sleep. What it sees of runs
     * goes to standard error, unless it is to be quiet. */
    void (*serve)(const volatile sig_atomic_t *ended, const sigset_t *waiting, bool quiet);
    void (*end)(const nolthewyr_server *server);
} nolthewyr_serving;

/* Removes shared memory that a server left when it died. False if a server still serves it. */
bool nolthewyr_memory_removed(const char *name);

extern const nolthewyr_serving nolthewyr_memory_serving;
extern const nolthewyr_serving nolthewyr_fabric_serving;

#endif
