/* An endpoint of libfabric with all that it stands on, for the server and for a run. */

#ifndef NOLTHEWYR_ENDPOINT_H
#define NOLTHEWYR_ENDPOINT_H

#include <rdma/fabric.h>
#include <rdma/fi_domain.h>
#include <rdma/fi_endpoint.h>

#include "server_file.h"

/* Inside the library alone. */
#pragma GCC visibility push(hidden)

typedef struct nolthewyr_endpoint {
    struct fi_info *info;
    struct fid_fabric *fabric;
    struct fid_domain *domain;
    struct fid_av *addresses;
    struct fid_cq *completions;
    struct fid_ep *endpoint;
    bool ordered; /* whether what is posted to a word is made in the order of posting */
    int work; /* of a server: a file descriptor that is readable while the provider has something to do; -1 if it has none */
} nolthewyr_endpoint;

/* Opens an endpoint over the server's provider: the server's own, or one from which that is reached. Asks for order, and does without where a
 * provider keeps none. False if it cannot, and `error` says
 * what libfabric said; nothing is then open. */
bool nolthewyr_endpoint_open(nolthewyr_endpoint *at, const nolthewyr_server *server, bool serves, char *error);

/* Registers memory for what `access` says. NULL if it cannot. */
struct fid_mr *nolthewyr_endpoint_register(nolthewyr_endpoint *at, void *memory, size_t size, uint64_t access, uint64_t key, char *error);

/* Whether the provider has something to do, or has within some milliseconds. One that cannot tell always has. */
bool nolthewyr_endpoint_has_work(nolthewyr_endpoint *at, int milliseconds);

void nolthewyr_endpoint_close(nolthewyr_endpoint *at);

#pragma GCC visibility pop

#endif
