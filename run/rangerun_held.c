/* rangerun held write and rangerun held read: a command under hold writes and reads units of its window through the run that holds it. */

#include <errno.h>
#include <inttypes.h>
#include <stdio.h>
#include <stdlib.h>
#include <string.h>
#include <sys/socket.h>
#include <unistd.h>

#include "arguments.h"
#include "held.h"
#include "units.h"

static const struct option options[] = {{"binary", no_argument, NULL, 'b'}, {0}};

static int failed(const char *reason)
{
    fprintf(stderr, "rangerun: held: %s\n", reason);
    return NOLTHEWYR_EXIT_FAILED;
}

/* Whether it is a socket of the kind on which requests are made, and not a file that has got its number since. */
static bool for_requests(int descriptor)
{
    int domain = 0, type = 0;
    socklen_t size = sizeof domain;
    return getsockopt(descriptor, SOL_SOCKET, SO_DOMAIN, &domain, &size) == 0 && domain == AF_UNIX &&
           getsockopt(descriptor, SOL_SOCKET, SO_TYPE, &type, &size) == 0 && type == SOCK_SEQPACKET;
}

/* The descriptor on which requests are made. 0, or the exit status when it has said why there is none. */
static int requests_found(int *requests)
{
    const char *text = getenv(NOLTHEWYR_HELD);
    uint64_t number;
    if (text == NULL)
        return failed(NOLTHEWYR_HELD " is not set: this is for the command of `rangerun FILE hold`; a file named held is ./held");
    if (!nolthewyr_number(text, &number) || number > INT32_MAX)
        return failed(NOLTHEWYR_HELD " is no number of a descriptor");
    *requests = (int)number;
    if (for_requests(*requests))
        return 0;
    return failed("the descriptor that " NOLTHEWYR_HELD " names is not that of hold: a program between hold and this one has closed it");
}

/* Sends the request with one end of the caller's own pair. */
static bool sent(int requests, nolthewyr_held_request *asked, int end)
{
    union { struct cmsghdr head; char room[CMSG_SPACE(sizeof(int))]; } beside = {0};
    struct iovec bytes = {.iov_base = asked, .iov_len = sizeof *asked};
    struct msghdr message = {.msg_iov = &bytes, .msg_iovlen = 1, .msg_control = &beside, .msg_controllen = sizeof beside};
    beside.head = (struct cmsghdr){.cmsg_level = SOL_SOCKET, .cmsg_type = SCM_RIGHTS, .cmsg_len = CMSG_LEN(sizeof end)};
    memcpy(CMSG_DATA(&beside.head), &end, sizeof end);
    return sendmsg(requests, &message, MSG_NOSIGNAL) == (ssize_t)sizeof *asked;
}

static bool all_received(int own, void *bytes, size_t size)
{
    for (size_t done = 0; done < size;) {
        ssize_t part = recv(own, (char *)bytes + done, size - done, 0);
        if (part == 0 || (part < 0 && errno != EINTR))
            return false;
        done += part > 0 ? (size_t)part : 0;
    }
    return true;
}

/* Whatever comes of it, an answer follows: so it does not matter whether all were taken. */
static void all_sent(int own, const void *bytes, size_t size)
{
    for (size_t done = 0; done < size;) {
        ssize_t part = send(own, (const char *)bytes + done, size - done, MSG_NOSIGNAL);
        if (part < 0 && errno != EINTR)
            return;
        done += part > 0 ? (size_t)part : 0;
    }
}

/* Receives an answer, and with it which units are meant. */
static int answered(int own, nolthewyr_transfer *transfer)
{
    nolthewyr_held_answer answer;
    if (!all_received(own, &answer, sizeof answer))
        return failed("hold has not answered: its command has ended, or hold was killed");
    answer.text[sizeof answer.text - 1] = '\0';
    transfer->window.left = answer.first;
    transfer->window.right = answer.first + answer.count;
    return answer.answer == NOLTHEWYR_RUN_DONE ? 0 : failed(answer.text);
}

static int written(int own, nolthewyr_transfer *transfer)
{
    int status = answered(own, transfer);
    if (status != 0)
        return status;
    if (!nolthewyr_units_fit(transfer))
        return NOLTHEWYR_EXIT_FAILED;
    all_sent(own, transfer->units, transfer->count * sizeof *transfer->units);
    return answered(own, transfer);
}

static int read_whole(int own, nolthewyr_transfer *transfer)
{
    int status = answered(own, transfer);
    if (status == 0)
        status = nolthewyr_units_room(transfer);
    if (status == 0 && !all_received(own, transfer->units, transfer->count * sizeof *transfer->units))
        status = failed("hold has not sent all units: its command has ended, or hold was killed");
    return status;
}

/* Makes a pair of sockets for this call, and the request; then its units go over that pair. */
static int moved(int requests, nolthewyr_transfer *transfer, bool writes)
{
    const nolthewyr_edges *window = &transfer->window;
    nolthewyr_held_request asked = {writes, !window->said, window->left, window->right - window->left};
    int pair[2], status;
    if (socketpair(AF_UNIX, SOCK_STREAM | SOCK_CLOEXEC, 0, pair) != 0)
        return failed(strerror(errno));
    bool asks = sent(requests, &asked, pair[1]);
    int error = errno;
    close(pair[1]);
    if (asks)
        status = writes ? written(pair[0], transfer) : read_whole(pair[0], transfer);
    else if (error == EPIPE)
        status = failed("hold serves no more calls: its command has ended, or hold was killed");
    else
        status = failed(strerror(error));
    close(pair[0]);
    return status;
}

/* What both do before anything is asked of the run that holds. */
static int begun(nolthewyr_transfer *transfer, int argc, char **argv, int *requests)
{
    int status = nolthewyr_transfer_set(transfer, options, argc, argv);
    if (status == 0 && transfer->window.said && transfer->window.left >= transfer->window.right)
        status = failed("the left edge is not below the right edge");
    return status == 0 ? requests_found(requests) : status;
}

int nolthewyr_held_write(const char *held, int argc, char **argv)
{
    nolthewyr_transfer transfer = {0};
    int requests, status = begun(&transfer, argc, argv, &requests);
    (void)held;
    if (status == 0)
        status = nolthewyr_units_input(&transfer);
    if (status == 0)
        status = moved(requests, &transfer, true);
    free(transfer.units);
    return status;
}

int nolthewyr_held_read(const char *held, int argc, char **argv)
{
    nolthewyr_transfer transfer = {0};
    int requests, status = begun(&transfer, argc, argv, &requests);
    (void)held;
    if (status == 0)
        status = moved(requests, &transfer, false);
    if (status == 0)
        status = nolthewyr_units_output(&transfer);
    free(transfer.units);
    return status;
}
