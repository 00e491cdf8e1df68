/* The transport over libfabric: what it is opened with (fabric.c), and how it posts and waits (posting.c). */

#ifndef NOLTHEWYR_FABRIC_H
#define NOLTHEWYR_FABRIC_H

#include "connection.h"
#include "endpoint.h"
#include "transport.h"

/* Inside the library alone. */
#pragma GCC visibility push(hidden)

/* Units go in chunks of at most so many. What a run has the server's log say has at most so many bytes, with the 0 behind them. */
enum { NOLTHEWYR_CHUNK = 8192, NOLTHEWYR_SAID_SIZE = 512 };

/* What libfabric reads from and writes to while something is under way: of a list each access has its own, and of units one chunk goes at a
 * time. */
typedef struct nolthewyr_buffers {
    struct {
        uint64_t value, expected, found;
    } words[NOLTHEWYR_MOST_AHEAD];
    uint64_t units[NOLTHEWYR_CHUNK];
    char said[NOLTHEWYR_SAID_SIZE];
} nolthewyr_buffers;

typedef struct nolthewyr_fabric {
    nolthewyr_transport transport;
    nolthewyr_endpoint local;
    nolthewyr_region start;
    nolthewyr_region words;
    nolthewyr_region units;
    fi_addr_t server;
    nolthewyr_connection connection;
    char reached[4 * NOLTHEWYR_NAME_SIZE]; /* where the server is, for a message */
    uint64_t answer_within; /* nanoseconds that it has for an answer, 0 for ever */
    nolthewyr_buffers *buffers;
    struct fid_mr *registered; /* the buffers, NULL where the provider does not ask for it */
    void *descriptor;
    uint64_t chunk;
    bool broken; /* something was posted and not completed: nobody knows whether it was made, and its buffers are still lent */
} nolthewyr_fabric;

/* As transport.h has them. */
bool nolthewyr_fabric_execute(nolthewyr_transport *transport, nolthewyr_access *list, size_t count);
bool nolthewyr_fabric_read(nolthewyr_transport *transport, uint64_t first, uint64_t count, uint64_t *units);
bool nolthewyr_fabric_write(nolthewyr_transport *transport, uint64_t first, uint64_t count, const uint64_t *units);
bool nolthewyr_fabric_admitted(nolthewyr_transport *transport);
void nolthewyr_fabric_announce(nolthewyr_transport *transport, const char *text, bool last);

/* Reads the identity that the server's memory has. */
bool nolthewyr_fabric_identity_read(nolthewyr_fabric *over);

#pragma GCC visibility pop

#endif
