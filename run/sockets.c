/* The connected sockets of this process. */

#include "sockets.h"

#include <ctype.h>
#include <dirent.h>
#include <netdb.h>
#include <stdio.h>
#include <stdlib.h>

bool nolthewyr_address_named(const struct sockaddr *address, socklen_t length, char *name)
{
    char host[NOLTHEWYR_PEER_SIZE / 2], port[16];
    if ((address->sa_family != AF_INET && address->sa_family != AF_INET6) ||
        getnameinfo(address, length, host, sizeof host, port, sizeof port, NI_NUMERICHOST | NI_NUMERICSERV) != 0)
        return false;
    snprintf(name, NOLTHEWYR_PEER_SIZE, address->sa_family == AF_INET6 ? "[%s]:%s" : "%s:%s", host, port);
    return true;
}

static bool named_by(int (*name_of)(int, struct sockaddr *, socklen_t *), int number, char *name)
{
    struct sockaddr_storage address;
    socklen_t length = sizeof address;
    return name_of(number, (struct sockaddr *)&address, &length) == 0 && nolthewyr_address_named((struct sockaddr *)&address, length, name);
}

void nolthewyr_each_socket(bool (*each)(void *context, const nolthewyr_socket *socket), void *context)
{
    struct dirent *entry;
    nolthewyr_socket found;
    bool going = true;
    DIR *opened = opendir("/proc/self/fd");
    while (opened != NULL && going && (entry = readdir(opened)) != NULL) {
        found.number = atoi(entry->d_name);
        if (isdigit((unsigned char)entry->d_name[0]) && named_by(getpeername, found.number, found.peer) &&
            named_by(getsockname, found.number, found.own))
            going = each(context, &found);
    }
    if (opened != NULL)
        closedir(opened);
}
