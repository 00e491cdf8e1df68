/* The connection of a run to its server, where that is a socket. A provider that loses it forgets what was under way: no completion comes, and
 * no error. So who waits for one looks whether the socket is still there. */

#ifndef NOLTHEWYR_CONNECTION_H
#define NOLTHEWYR_CONNECTION_H

#include <netinet/in.h>

#include "server_file.h"
#include "sockets.h"

/* Inside the library alone. */
#pragma GCC visibility push(hidden)

enum { NOLTHEWYR_MOST_CONNECTIONS = 64 };

typedef struct nolthewyr_connection {
    int file;                       /* that of a server on this machine, by whose lock it is seen that it has died; -1 of any other */
    struct sockaddr_in6 server;     /* the server's address, whatever it is */
    char peer[NOLTHEWYR_PEER_SIZE]; /* the same in numbers, empty where it is none of a network */
    char own[NOLTHEWYR_PEER_SIZE];  /* of the run's socket, empty while it is not known */
    bool answered;                  /* the server's first answer has come */
    char others[NOLTHEWYR_MOST_CONNECTIONS][NOLTHEWYR_PEER_SIZE]; /* sockets of this process to the same server that were there before */
    size_t other_count;
} nolthewyr_connection;

/* Before the run connects: notes the server's address, and the sockets that are not the run's. */
void nolthewyr_connection_begun(nolthewyr_connection *connection, const nolthewyr_server *server);

/* After the server's first answer: finds the run's socket. If more than one has come meanwhile it stays unknown. */
void nolthewyr_connection_found(nolthewyr_connection *connection);

/* Why no answer can come any more: the run's socket is gone, or, before the first answer, nobody listens at the server's address, which it tries for
 * itself; or a server that has no address of a network has died. 0 if an answer may come still. */
int nolthewyr_connection_lost(const nolthewyr_connection *connection);

#pragma GCC visibility pop

#endif
