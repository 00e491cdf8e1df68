/* What stands for a server over libfabric where it was not there when this was built. */

#include "serving.h"

#include <stdio.h>

static bool begin(nolthewyr_server *server, char *error)
{
    snprintf(error, NOLTHEWYR_ERROR_SIZE, "--over %s: built without libfabric, only --over memory is here", server->over);
    return false;
}

const nolthewyr_serving nolthewyr_fabric_serving = {.begin = begin};
