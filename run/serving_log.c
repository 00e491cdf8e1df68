/* What a server over libfabric says of its runs. Its connections are the sockets of this process. */

#include "serving_log.h"

#include <ctype.h>
#include <errno.h>
#include <signal.h>
#include <stdio.h>
#include <stdlib.h>
#include <string.h>
#include <time.h>

#include "left.h"
#include "sockets.h"

enum { WHO_SIZE = 200, SILENT_SECONDS = 2 };

/* A connected socket, and the run that has named itself over it; or the process of a run on this machine. */
typedef struct connection {
    struct connection *next;
    int socket;
    long process; /* 0 for a socket */
    char address[NOLTHEWYR_PEER_SIZE];
    char who[WHO_SIZE]; /* empty if nobody has */
    time_t since;
    bool there, missed, closed, said; /* missed: it was not there at the last look */
} connection;

static connection *connections;
static bool quiet, over_network;

void nolthewyr_log_begun(bool is_quiet, bool is_over_network)
{
    quiet = is_quiet;
    over_network = is_over_network;
}

static time_t seconds(void)
{
    struct timespec now;
    clock_gettime(CLOCK_MONOTONIC, &now);
    return now.tv_sec;
}

static void line_written(const char *address, const char *what, const char *who, const char *why)
{
    char moment[32];
    time_t now = time(NULL);
    struct tm local;
    if (quiet)
        return;
    strftime(moment, sizeof moment, "%Y-%m-%dT%H:%M:%S", localtime_r(&now, &local));
    fprintf(stderr, "rangeserver: %s %s: %s%s%s%s%s\n", moment, address, what, *who ? ": " : "", who, *why ? ": " : "", why);
}

/* A new one, or NULL if there is no memory for it. */
static connection *added(const char *address, int socket, long process)
{
    connection *at = calloc(1, sizeof *at);
    if (at == NULL)
        return NULL;
    *at = (connection){.next = connections, .socket = socket, .process = process, .since = seconds()};
    snprintf(at->address, sizeof at->address, "%s", address);
    return connections = at;
}

/* Notes a socket as there, anew if it was not before. */
static bool connection_noted(void *context, const nolthewyr_socket *socket)
{
    connection *at = connections;
    (void)context;
    while (at != NULL && (at->socket != socket->number || strcmp(at->address, socket->peer) != 0))
        at = at->next;
    if (at == NULL)
        at = added(socket->peer, socket->number, 0);
    if (at != NULL) {
        at->there = true;
        at->missed = false;
    }
    return true;
}

/* Takes out those that are gone, and says so of each that did not close before. The provider may close a socket before the line that came over it
 * is heard: so it is said at the second look at which a connection is missed, and what was there at the first is heard by then. */
static void gone_taken_out(void)
{
    for (connection **at = &connections; *at != NULL;) {
        connection *here = *at;
        if (here->there || !here->missed) {
            here->missed = !here->there;
            at = &here->next;
            continue;
        }
        if (here->process > 0)
            nolthewyr_left_removed(here->process);
        if (here->who[0] != '\0' && !here->closed)
            line_written(here->address, "gone without closing", here->who, "if it held a window, that stays taken");
        else if (here->who[0] == '\0')
            line_written(here->address, "gone", "", "a connection over which no run has opened");
        *at = here->next;
        free(here);
    }
}

/* Says once of a connection over which nobody has opened a run for a while that it is there. */
static void silent_said(void)
{
    for (connection *at = connections; at != NULL; at = at->next)
        if (at->who[0] == '\0' && !at->said && seconds() - at->since >= SILENT_SECONDS) {
            line_written(at->address, "connected", "", "no run has opened over it so far");
            at->said = true;
        }
}

void nolthewyr_log_looked(void)
{
    for (connection *at = connections; at != NULL; at = at->next)
        at->there = at->process > 0 && (kill((pid_t)at->process, 0) == 0 || errno == EPERM);
    nolthewyr_each_socket(connection_noted, NULL);
    gone_taken_out();
    silent_said();
}

/* The connection of the run that has sent a line: the one of that address. Where addresses are translated on the way, or not known, it is the one
 * that has its name, and for a new name the only one that has none. NULL if that is not known. */
static connection *connection_of(const char *address, const char *who, bool is_new)
{
    connection *found = NULL;
    size_t fitting = 0;
    for (connection *at = connections; at != NULL; at = at->next) {
        if (strcmp(at->address, address) == 0)
            return at;
        bool fits = is_new ? at->who[0] == '\0' : strcmp(at->who, who) == 0 && !at->closed;
        found = fits ? at : found;
        fitting += fits;
    }
    return is_new && fitting > 1 ? NULL : found;
}

/* Nothing but what can be printed, whoever has sent it. */
static void made_printable(char *text)
{
    for (; *text != '\0'; text++)
        if (!isprint((unsigned char)*text))
            *text = '?';
}

/* The part of a text before ": ", and in `rest` what is behind it. */
static char *part(char **rest)
{
    char *begin = *rest, *end = strstr(begin, ": ");
    *rest = end == NULL ? begin + strlen(begin) : end + 2;
    if (end != NULL)
        *end = '\0';
    return begin;
}

/* Runs of one process that open at the same moment do not know which socket is whose: all that nobody has named so far are taken for theirs. */
static void all_named(const char *who)
{
    for (connection *at = connections; at != NULL; at = at->next)
        if (at->who[0] == '\0')
            snprintf(at->who, sizeof at->who, "%s", who);
}

void nolthewyr_log_heard(const char *said)
{
    char text[1000], *rest = text;
    long process;
    snprintf(text, sizeof text, "%s", said);
    made_printable(text);
    char *what = part(&rest), *address = part(&rest), *who = part(&rest);
    nolthewyr_each_socket(connection_noted, NULL);
    if (!over_network && strcmp(what, "opened") == 0 && sscanf(who, "process %ld", &process) == 1)
        added("this machine", -1, process);
    connection *from = connection_of(address, who, strcmp(what, "closed") != 0);
    line_written(from == NULL ? "a run" : from->address, what, who, rest);
    if (from != NULL) {
        snprintf(from->who, sizeof from->who, "%s", who);
        from->closed = strcmp(what, "opened") != 0;
    } else if (address[0] == '\0' && strcmp(what, "opened") == 0)
        all_named(who);
}
