/* What stands for the transport over libfabric where it was not there when this was built. */

#include "transport.h"

#include <stdio.h>

nolthewyr_transport *nolthewyr_fabric_open(const nolthewyr_server *server, uint64_t answer_within, char *error)
{
    (void)answer_within;
    snprintf(error, NOLTHEWYR_ERROR_SIZE, "over %s: built without libfabric, only runs over memory are here", server->over);
    return NULL;
}
