/* The connected sockets of this process. libfabric tells a program nothing of the connections that it makes and accepts, but the kernel does. */

#ifndef NOLTHEWYR_SOCKETS_H
#define NOLTHEWYR_SOCKETS_H

#include <stdbool.h>
#include <sys/socket.h>

/* Inside the library alone. */
#pragma GCC visibility push(hidden)

enum { NOLTHEWYR_PEER_SIZE = 100 };

/* A socket that is connected over a network: both of its addresses, as `HOST:PORT` in numbers. */
typedef struct nolthewyr_socket {
    int number;
    char own[NOLTHEWYR_PEER_SIZE];
    char peer[NOLTHEWYR_PEER_SIZE];
} nolthewyr_socket;

/* Calls `each` for every one, until it gives false. It costs some microseconds for each open file. */
void nolthewyr_each_socket(bool (*each)(void *context, const nolthewyr_socket *socket), void *context);

/* An address in numbers; false if it is none of a network. */
bool nolthewyr_address_named(const struct sockaddr *address, socklen_t length, char *name);

#pragma GCC visibility pop

#endif
