/* What goes between hold and the calls `rangerun held` that its command makes while the window is held. Both are processes of one machine.
 *
 * hold makes a pair of sockets that keep messages apart. It keeps one end, and its command inherits the other, whose number stands in
 * NOLTHEWYR_HELD. A call makes a pair of its own and sends one end of it with its request, in one message. All else goes over that pair:
 * so calls that are made at the same time do not meet. hold answers which units they are. Behind the answer to a read the units come. Those of
 * a write go the other way, and a last answer says that they are written. */

#ifndef NOLTHEWYR_HELD_H
#define NOLTHEWYR_HELD_H

#include <sys/types.h>

#include "run.h"

#define NOLTHEWYR_HELD "NOLTHEWYR_HELD"

typedef struct nolthewyr_held_request {
    uint64_t writes; /* 1 if it is a write, 0 if a read */
    uint64_t whole;  /* 1 for the whole window, whatever the next two say */
    uint64_t first, count;
} nolthewyr_held_request;

typedef struct nolthewyr_held_answer {
    uint64_t answer; /* NOLTHEWYR_RUN_DONE, or else the text says why not */
    uint64_t first, count;
    char text[NOLTHEWYR_ERROR_SIZE];
} nolthewyr_held_answer;

/* Both ends on which requests are made, -1 where one is closed. */
typedef struct nolthewyr_requests {
    int of_holder, of_command;
} nolthewyr_requests;

/* Makes both ends, and sets NOLTHEWYR_HELD for a command that is started from now on. False if it cannot, which is said. */
bool nolthewyr_requests_open(nolthewyr_requests *requests);

/* Serves requests, one after another, until the process of the command has ended or nobody can make requests any more. The process is
 * still to be waited for. */
void nolthewyr_requests_serve(nolthewyr_requests *requests, nolthewyr_run *run, pid_t command);

void nolthewyr_requests_close(nolthewyr_requests *requests);

#endif
