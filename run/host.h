/* The host of a server: whether it is known, and for a server, whether it may listen there. libfabric says of all that goes wrong with hosts only
 * that it has no data. */

#ifndef NOLTHEWYR_HOST_H
#define NOLTHEWYR_HOST_H

#include "server_file.h"

/* Inside the library alone. */
#pragma GCC visibility push(hidden)

/* True where the server has no host. If not, `error` says what is wrong with which host or port. */
bool nolthewyr_host_found(const nolthewyr_server *server, bool serves, char *error);

#pragma GCC visibility pop

#endif
