/* The connection of a run to its server, where that is a socket. */

#include "connection.h"

#include <errno.h>
#include <poll.h>
#include <string.h>
#include <unistd.h>

#include "file_locks.h"

/* For so long a plain connection is waited for. */
enum { MILLISECONDS = 100 };

static bool was_there(const nolthewyr_connection *connection, const char *own)
{
    for (size_t i = 0; i < connection->other_count; i++)
        if (strcmp(connection->others[i], own) == 0)
            return true;
    return false;
}

static bool other_noted(void *context, const nolthewyr_socket *socket)
{
    nolthewyr_connection *connection = context;
    if (strcmp(socket->peer, connection->peer) == 0 && connection->other_count < NOLTHEWYR_MOST_CONNECTIONS)
        strcpy(connection->others[connection->other_count++], socket->own);
    return true;
}

/* Of two new ones nobody knows which is the run's. */
static bool own_noted(void *context, const nolthewyr_socket *socket)
{
    nolthewyr_connection *connection = context;
    if (strcmp(socket->peer, connection->peer) != 0 || was_there(connection, socket->own))
        return true;
    bool first = connection->own[0] == '\0';
    strcpy(connection->own, first ? socket->own : "");
    return first;
}

static bool is_another(void *context, const nolthewyr_socket *socket)
{
    const nolthewyr_connection **connection = context;
    if (strcmp(socket->own, (*connection)->own) != 0 || strcmp(socket->peer, (*connection)->peer) != 0)
        return true;
    *connection = NULL;
    return false;
}

void nolthewyr_connection_begun(nolthewyr_connection *connection, const nolthewyr_server *server)
{
    unsigned char bytes[NOLTHEWYR_ADDRESS_SIZE] = {0};
    memset(connection, 0, sizeof *connection);
    connection->file = server->host[0] == '\0' ? server->file : -1;
    nolthewyr_address_read(server, bytes);
    memcpy(&connection->server, bytes, sizeof connection->server);
    if (server->host[0] == '\0' || !nolthewyr_address_named((struct sockaddr *)&connection->server, sizeof connection->server, connection->peer))
        return;
    nolthewyr_each_socket(other_noted, connection);
}

void nolthewyr_connection_found(nolthewyr_connection *connection)
{
    connection->answered = true;
    if (connection->peer[0] != '\0' && connection->other_count < NOLTHEWYR_MOST_CONNECTIONS)
        nolthewyr_each_socket(own_noted, connection);
}

/* Why a plain connection to the server is refused, 0 if it is made or may still be: a provider tries again for ever, and says nothing. */
static int refused(const nolthewyr_connection *connection)
{
    const struct sockaddr *server = (const struct sockaddr *)&connection->server;
    socklen_t length = server->sa_family == AF_INET ? sizeof(struct sockaddr_in) : sizeof(struct sockaddr_in6), size = sizeof(int);
    int tried = socket(server->sa_family, SOCK_STREAM | SOCK_NONBLOCK | SOCK_CLOEXEC, 0), error = 0;
    if (tried < 0)
        return 0;
    if (connect(tried, server, length) != 0 && errno != EINPROGRESS)
        error = errno;
    else if (poll(&(struct pollfd){.fd = tried, .events = POLLOUT}, 1, MILLISECONDS) > 0)
        getsockopt(tried, SOL_SOCKET, SO_ERROR, &error, &size);
    close(tried);
    return error;
}

int nolthewyr_connection_lost(const nolthewyr_connection *connection)
{
    const nolthewyr_connection *known = connection;
    if (connection->peer[0] == '\0')
        return connection->file < 0 || nolthewyr_server_of(connection->file) != 0 ? 0 : ENOTCONN;
    if (!connection->answered)
        return refused(connection);
    if (connection->own[0] == '\0')
        return 0;
    nolthewyr_each_socket(is_another, &known);
    return known == NULL ? 0 : ENOTCONN;
}
