/* The host of a server. */

#include "host.h"

#include <errno.h>
#include <netdb.h>
#include <stdio.h>
#include <string.h>
#include <sys/socket.h>
#include <unistd.h>

/* Whether a plain socket can be bound to the address. 0, or why it cannot. */
static int bound(const struct addrinfo *address)
{
    int tried = socket(address->ai_family, SOCK_STREAM | SOCK_CLOEXEC, 0), on = 1;
    if (tried < 0)
        return errno;
    setsockopt(tried, SOL_SOCKET, SO_REUSEADDR, &on, sizeof on); /* as libfabric has it: a port of which old connections are left is free */
    int failed = bind(tried, address->ai_addr, address->ai_addrlen) == 0 && listen(tried, 1) == 0 ? 0 : errno;
    close(tried);
    return failed;
}

/* Whether the server may listen there. Of ports that are not TCP's only the address is tried. */
static bool may_listen(const nolthewyr_server *server, const struct addrinfo *address, char *error)
{
    int failed = bound(address);
    if (failed == EADDRNOTAVAIL)
        snprintf(error, NOLTHEWYR_ERROR_SIZE, "%s is no address of this machine: `ip addr` shows those that it has", server->host);
    else if (failed == EADDRINUSE)
        snprintf(error, NOLTHEWYR_ERROR_SIZE, "port %s of %s is in use: another process listens there", server->port, server->host);
    else if (failed != 0)
        snprintf(error, NOLTHEWYR_ERROR_SIZE, "%s port %s: %s", server->host, server->port[0] == '\0' ? "0" : server->port, strerror(failed));
    return failed == 0;
}

bool nolthewyr_host_found(const nolthewyr_server *server, bool serves, char *error)
{
    struct addrinfo asked = {.ai_socktype = SOCK_STREAM}, *found = NULL;
    bool has_port = serves && server->port[0] != '\0' && strstr(server->over, "tcp") != NULL;
    if (server->host[0] == '\0')
        return true;
    int failed = getaddrinfo(server->host, has_port ? server->port : NULL, &asked, &found);
    if (failed != 0) {
        snprintf(error, NOLTHEWYR_ERROR_SIZE, "host %s: %s", server->host, failed == EAI_SYSTEM ? strerror(errno) : gai_strerror(failed));
        return false;
    }
    bool may = !serves || may_listen(server, found, error);
    freeaddrinfo(found);
    return may;
}
