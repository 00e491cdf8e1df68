/* hold's side of `rangerun held`: it reads and writes units for its command while that runs. */

#include <errno.h>
#include <fcntl.h>
#include <inttypes.h>
#include <poll.h>
#include <stdio.h>
#include <stdlib.h>
#include <string.h>
#include <sys/socket.h>
#include <sys/syscall.h>
#include <unistd.h>

#include "held.h"

/* A script's own descriptors have one digit, so that those from LEAST_NUMBER on are not in its way. A call that neither sends nor receives
 * anything for CALL_MOST milliseconds is given up, since others may wait behind it. */
enum { LEAST_NUMBER = 10, CALL_MOST = 5000, FOREVER = -1 };

/* Who serves whom: the run that holds, and two descriptors, one for requests and one that tells when the command has ended. */
typedef struct service {
    nolthewyr_run *run;
    int requests, ended;
} service;

static bool handed_on(int number)
{
    char text[24];
    snprintf(text, sizeof text, "%d", number);
    return setenv(NOLTHEWYR_HELD, text, 1) == 0;
}

bool nolthewyr_requests_open(nolthewyr_requests *requests)
{
    int pair[2] = {-1, -1};
    *requests = (nolthewyr_requests){.of_holder = -1, .of_command = -1};
    if (socketpair(AF_UNIX, SOCK_SEQPACKET | SOCK_CLOEXEC, 0, pair) == 0) {
        *requests = (nolthewyr_requests){.of_holder = pair[0], .of_command = fcntl(pair[1], F_DUPFD, LEAST_NUMBER)};
        close(pair[1]);
    }
    if (requests->of_command >= 0 && handed_on(requests->of_command))
        return true;
    fprintf(stderr, "rangerun: no sockets for the calls of the command (see ulimit -n): %s\n", strerror(errno));
    nolthewyr_requests_close(requests);
    return false;
}

static void closed(int *end)
{
    if (*end >= 0)
        close(*end);
    *end = -1;
}

void nolthewyr_requests_close(nolthewyr_requests *requests)
{
    closed(&requests->of_holder);
    closed(&requests->of_command);
}

/* What has come of the descriptor; 0 if the command has ended, or nothing came for so many milliseconds. */
static short come(const service *at, int descriptor, short events, int milliseconds)
{
    struct pollfd looked[] = {{.fd = descriptor, .events = events}, {.fd = at->ended, .events = POLLIN}};
    int found;
    while ((found = poll(looked, 2, milliseconds)) < 0 && errno == EINTR)
        ;
    return found <= 0 || looked[1].revents != 0 ? 0 : looked[0].revents;
}

/* Sends all these bytes to the caller, or receives them. False if the caller has gone, or does nothing, or the command has ended. */
static bool moved(const service *at, int caller, void *bytes, size_t size, bool sends)
{
    int how = MSG_DONTWAIT | MSG_NOSIGNAL;
    for (size_t done = 0; done < size;) {
        char *next = (char *)bytes + done;
        ssize_t part = sends ? send(caller, next, size - done, how) : recv(caller, next, size - done, how);
        if (part > 0)
            done += (size_t)part;
        else if (part == 0 || errno != EAGAIN || come(at, caller, sends ? POLLOUT : POLLIN, CALL_MOST) == 0)
            return false;
    }
    return true;
}

/* Tells the caller how its request ended, or which units are to go now. */
static bool told(const service *at, int caller, const nolthewyr_held_request *asked, int answer, const char *text)
{
    nolthewyr_held_answer told = {.answer = (uint64_t)answer, .first = asked->first, .count = asked->count};
    snprintf(told.text, sizeof told.text, "%s", text);
    return moved(at, caller, &told, sizeof told, true);
}

static void read_served(const service *at, int caller, const nolthewyr_held_request *asked, uint64_t *units)
{
    int answer = nolthewyr_run_read(at->run, asked->first, asked->count, units);
    if (told(at, caller, asked, answer, nolthewyr_run_error(at->run)) && answer == NOLTHEWYR_RUN_DONE)
        moved(at, caller, units, asked->count * sizeof *units, true);
}

/* Nothing is written before all units have come. */
static void write_served(const service *at, int caller, const nolthewyr_held_request *asked, uint64_t *units)
{
    if (!told(at, caller, asked, NOLTHEWYR_RUN_DONE, ""))
        return;
    if (!moved(at, caller, units, asked->count * sizeof *units, false)) {
        told(at, caller, asked, NOLTHEWYR_RUN_REFUSED, "none came for 5 seconds, or the command has ended: nothing is written");
        return;
    }
    int answer = nolthewyr_run_write(at->run, asked->first, asked->count, units);
    told(at, caller, asked, answer, nolthewyr_run_error(at->run));
}

/* Serves a request whose units there is room for. Units outside the window are refused before that, as the library refuses them: it then looks at
 * no room. */
static void served(const service *at, int caller, nolthewyr_held_request asked)
{
    uint64_t left = at->run->client.record.left, right = at->run->client.record.right;
    if (asked.whole)
        asked = (nolthewyr_held_request){.writes = asked.writes, .first = left, .count = right - left};
    if (asked.first < left || asked.first > right || asked.count > right - asked.first) {
        int answer = nolthewyr_run_read(at->run, asked.first, asked.count, NULL);
        told(at, caller, &asked, answer, nolthewyr_run_error(at->run));
        return;
    }
    uint64_t *units = malloc(asked.count * sizeof *units + 1);
    if (units == NULL)
        told(at, caller, &asked, NOLTHEWYR_RUN_REFUSED, "the run that holds the window has no memory for so many units");
    else if (asked.writes)
        write_served(at, caller, &asked, units);
    else
        read_served(at, caller, &asked, units);
    free(units);
}

/* Receives a message that is a request, and gives the socket of its caller; -1 if it is none. */
static int received(int requests, nolthewyr_held_request *asked)
{
    union { struct cmsghdr head; char room[CMSG_SPACE(sizeof(int))]; } beside = {0};
    struct iovec bytes = {.iov_base = asked, .iov_len = sizeof *asked};
    /* Its length, and not its space: there would be room in that for a second descriptor, which nobody would close. */
    struct msghdr message = {.msg_iov = &bytes, .msg_iovlen = 1, .msg_control = &beside, .msg_controllen = CMSG_LEN(sizeof(int))};
    ssize_t size = recvmsg(requests, &message, MSG_DONTWAIT | MSG_CMSG_CLOEXEC);
    struct cmsghdr *head = size < 0 ? NULL : CMSG_FIRSTHDR(&message);
    int caller = -1;
    if (head != NULL && head->cmsg_level == SOL_SOCKET && head->cmsg_type == SCM_RIGHTS && head->cmsg_len == CMSG_LEN(sizeof caller))
        memcpy(&caller, CMSG_DATA(head), sizeof caller);
    if (caller >= 0 && (size != sizeof *asked || message.msg_flags & MSG_TRUNC))
        closed(&caller);
    return caller;
}

void nolthewyr_requests_serve(nolthewyr_requests *requests, nolthewyr_run *run, pid_t command)
{
    service at = {.run = run, .requests = requests->of_holder, .ended = (int)syscall(SYS_pidfd_open, command, 0)};
    nolthewyr_held_request asked;
    short found = 0;
    closed(&requests->of_command);
    if (at.ended < 0)
        fprintf(stderr, "rangerun: `rangerun held` is not served, since Linux does not tell when the command has ended: %s\n", strerror(errno));
    while (at.ended >= 0 && (found = come(&at, at.requests, POLLIN, FOREVER)) != 0) {
        int caller = received(at.requests, &asked);
        if (caller >= 0)
            served(&at, caller, asked);
        else if (found & (POLLHUP | POLLERR))
            break;
        closed(&caller);
    }
    closed(&at.ended);
}
