/* Words and units of a server that is reached over libfabric, opened and closed: which atomics the provider has, and whether it keeps their
 * order. The server's processor takes no part; where a provider is software, the server's process drives it. */

#include "fabric.h"

#include <rdma/fi_atomic.h>
#include <stdio.h>
#include <stdlib.h>
#include <string.h>

enum { KEY = 3 };

static void close_fabric(nolthewyr_transport *transport)
{
    nolthewyr_fabric *over = (nolthewyr_fabric *)transport;
    if (over->registered != NULL)
        fi_close(&over->registered->fid);
    nolthewyr_endpoint_close(&over->local);
    free(over->buffers);
    free(over);
}

/* Makes the server's address known to the endpoint. */
static bool server_known(nolthewyr_fabric *over, const nolthewyr_server *server, char *error)
{
    unsigned char address[NOLTHEWYR_ADDRESS_SIZE] = {0};
    nolthewyr_address_read(server, address);
    if (fi_av_insert(over->local.addresses, address, 1, &over->server, 0, NULL) == 1)
        return true;
    snprintf(error, NOLTHEWYR_ERROR_SIZE, "over %s: the server's address is not one of this provider: %s", server->over, server->address);
    return false;
}

static bool fetches(const nolthewyr_fabric *over, enum fi_datatype type, enum fi_op operation)
{
    size_t count = 0;
    return fi_fetch_atomicvalid(over->local.endpoint, type, operation, &count) == 0 && count > 0;
}

/* A provider may have atomics and not these, which it would say only when they are posted. Without the first two there are no runs; without the
 * others operations go by swaps. Quarters of a word are where posting.c looks for them if the lowest byte comes first. */
static bool has_atomics(nolthewyr_fabric *over, const nolthewyr_server *server, char *error)
{
    size_t swapped = 0;
    bool reads = fetches(over, FI_UINT64, FI_ATOMIC_READ);
    bool swaps = fi_compare_atomicvalid(over->local.endpoint, FI_UINT64, FI_CSWAP, &swapped) == 0 && swapped > 0;
    over->transport.adds = __BYTE_ORDER__ == __ORDER_LITTLE_ENDIAN__ && fetches(over, FI_UINT16, FI_SUM);
    over->transport.flips = fetches(over, FI_UINT64, FI_BXOR);
    if (!reads || !swaps)
        snprintf(error, NOLTHEWYR_ERROR_SIZE, "over %s: the provider has no atomic %s of 64 bits (%s)", server->over,
                 reads ? "compare-and-swap" : "read", reads ? "FI_CSWAP" : "FI_ATOMIC_READ");
    return reads && swaps;
}

/* Whom a message names: the host and its port, where there are such. */
static void reached_named(nolthewyr_fabric *over, const nolthewyr_server *server)
{
    if (server->host[0] == '\0')
        snprintf(over->reached, sizeof over->reached, "the server over %s", server->over);
    else
        snprintf(over->reached, sizeof over->reached, "the server at %s port %s over %s", server->host, server->port, server->over);
}

/* Reads the identity, before any word: a provider connects only when something is posted, and a server that is gone, or was started anew, is to be
 * found out now. */
static bool answers(nolthewyr_fabric *over, char *error)
{
    bool answered = nolthewyr_fabric_identity_read(over);
    if (answered)
        nolthewyr_connection_found(&over->connection);
    over->transport.own_address = over->connection.own;
    if (!answered)
        snprintf(error, NOLTHEWYR_ERROR_SIZE, "%s", over->transport.error);
    return answered;
}

static bool reached(nolthewyr_fabric *over, const nolthewyr_server *server, char *error)
{
    over->buffers = calloc(1, sizeof *over->buffers);
    over->start = server->start;
    over->words = server->words;
    over->units = server->units;
    reached_named(over, server);
    nolthewyr_connection_begun(&over->connection, server);
    if (over->buffers == NULL || !nolthewyr_endpoint_open(&over->local, server, false, error) || !has_atomics(over, server, error) ||
        !server_known(over, server, error))
        return false;
    uint64_t most = over->local.info->ep_attr->max_msg_size / sizeof(uint64_t);
    over->chunk = most < NOLTHEWYR_CHUNK ? most : NOLTHEWYR_CHUNK;
    over->transport.together = over->local.ordered ? NOLTHEWYR_MOST_AHEAD : 1;
    if (over->local.info->domain_attr->mr_mode & FI_MR_LOCAL) {
        over->registered = nolthewyr_endpoint_register(&over->local, over->buffers, sizeof *over->buffers, FI_READ | FI_WRITE, KEY, error);
        if (over->registered == NULL)
            return false;
        over->descriptor = fi_mr_desc(over->registered);
    }
    return answers(over, error);
}

/* An access tells whether there is still a server. */
static bool served(nolthewyr_transport *transport)
{
    return !((nolthewyr_fabric *)transport)->broken;
}

nolthewyr_transport *nolthewyr_fabric_open(const nolthewyr_server *server, uint64_t answer_within, char *error)
{
    nolthewyr_fabric *over = calloc(1, sizeof *over);
    snprintf(error, NOLTHEWYR_ERROR_SIZE, "no memory for a run");
    if (over == NULL)
        return NULL;
    /* Between machines CLOCK_MONOTONIC may be made faster or slower than it is allowed to be, by time synchronisation (docs/LINKING.md). */
    over->transport = (nolthewyr_transport){.execute = nolthewyr_fabric_execute, .read_units = nolthewyr_fabric_read,
                                            .write_units = nolthewyr_fabric_write, .admitted = nolthewyr_fabric_admitted, .served = served,
                                            .announce = nolthewyr_fabric_announce, .close = close_fabric, .clock = CLOCK_MONOTONIC_RAW};
    over->answer_within = answer_within;
    if (reached(over, server, error))
        return &over->transport;
    close_fabric(&over->transport);
    return NULL;
}
