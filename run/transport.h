/* How a run reaches the words and units of a memory server. One loop stands above it (step.c), and each transport is a file below it:
 * memory.c and fabric.c. */

#ifndef NOLTHEWYR_TRANSPORT_H
#define NOLTHEWYR_TRANSPORT_H

#include <stdbool.h>
#include <stddef.h>
#include <stdint.h>
#include <time.h>

#include "server_file.h"

/* Inside the library alone. */
#pragma GCC visibility push(hidden)

/* The most operations that are due together: the nodes that an inner node checks, at distance 4 (document 01). */
enum { NOLTHEWYR_MOST_AHEAD = 85 };

/* What an access does to its word. Every transport reads and swaps; the other two it may have. */
enum nolthewyr_access_kind {
    NOLTHEWYR_ACCESS_READ,
    NOLTHEWYR_ACCESS_SWAP, /* writes `value` if the word is `expected` */
    NOLTHEWYR_ACCESS_ADD,  /* adds 1 to one of the two lowest quarters of the word, which wraps by itself: `value` is 1, or 1 << 16 */
    NOLTHEWYR_ACCESS_FLIP  /* flips the bits of `value` */
};

/* One access to one word. `found` is the word as it was before; of an add it is the quarter alone, in its place. */
typedef struct nolthewyr_access {
    enum nolthewyr_access_kind kind;
    uint64_t node; /* node n is word n - 1 */
    uint64_t expected;
    uint64_t value;
    uint64_t found;
} nolthewyr_access;

/* A function that fails says why in `error`. Who calls sees to it that nodes and units are there. */
typedef struct nolthewyr_transport nolthewyr_transport;
struct nolthewyr_transport {
    /* Makes the accesses in the order of the list, and returns when all are made. No list of a run has a write behind a read whose order matters, so
     * that a transport need not keep that order (FI_ORDER_ATOMIC_WAR is not asked for): of reads behind reads and of all that is behind a write it
     * does. A swap, an add and a flip are writes here, though they give back what they found. */
    bool (*execute)(nolthewyr_transport *transport, nolthewyr_access *list, size_t count);
    /* What is written is in place before the call returns: the accesses after it may let another run in. */
    bool (*read_units)(nolthewyr_transport *transport, uint64_t first, uint64_t count, uint64_t *units);
    bool (*write_units)(nolthewyr_transport *transport, uint64_t first, uint64_t count, const uint64_t *units);
    /* Whether words and units are under the keys of the server's file, when the run opens. */
    bool (*admitted)(nolthewyr_transport *transport);
    /* Whether the server still serves, as far as this is known without asking it. Accesses to a server that does not are made to words that nobody
     * else has. */
    bool (*served)(nolthewyr_transport *transport);
    /* Has the server's log say what becomes of this run; `last` if nothing comes behind it. NULL where the server keeps none. */
    void (*announce)(nolthewyr_transport *transport, const char *text, bool last);
    void (*close)(nolthewyr_transport *transport);
    /* A clock that is true within 1 part in 10,000 among all runs that share the words by this transport. */
    clockid_t clock;
    size_t together; /* how many accesses it has under way at a time: 1 where it does not know that they are made in order */
    bool adds, flips;
    nolthewyr_identity identity; /* as the server's memory has it */
    const char *own_address; /* of its connection, as HOST:PORT; NULL or empty where it is not known */
    bool gone; /* the server is known to have ended: its words are lost, and nothing stays taken there */
    char error[NOLTHEWYR_ERROR_SIZE];
};

/* Each gives NULL and says why in `error` if it cannot reach the server, or if that does not answer within so many nanoseconds, 0 for ever. Over
 * shared memory there is nothing to wait for. */
nolthewyr_transport *nolthewyr_memory_open(const nolthewyr_server *server, char *error);
nolthewyr_transport *nolthewyr_fabric_open(const nolthewyr_server *server, uint64_t answer_within, char *error);

#pragma GCC visibility pop

#endif
