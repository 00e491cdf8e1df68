/* The inside of a run: its own record and clock, the transport below it, and how it pauses. */

#ifndef NOLTHEWYR_RUN_INSIDE_H
#define NOLTHEWYR_RUN_INSIDE_H

#include <stdatomic.h>

#include "nolthewyr_run.h"
#include "transport.h"

/* Inside the library alone. */
#pragma GCC visibility push(hidden)

/* The most levels of a tree; and below how many nanoseconds the first pause is between two looks at a word that another must change first. */
enum { NOLTHEWYR_MOST_LEVELS = 12, NOLTHEWYR_LOOK_FIRST = 1000 };

/* The last word that a run saw at a node. */
typedef struct nolthewyr_seen {
    uint64_t node, word;
    bool whole; /* false if it saw none, or a part of one alone: then no flip goes by it */
} nolthewyr_seen;

struct nolthewyr_run {
    nolthewyr_transport *transport;
    nolthewyr_settings settings;
    nolthewyr_client client;
    nolthewyr_run_counts counts;
    nolthewyr_run_lists lists;
    bool only_swaps; /* words are read and swapped alone, though the transport has more */
    /* What is under way: operations that are due together, the accesses that make them, and the words that they found. */
    nolthewyr_operation_answer operations[NOLTHEWYR_MOST_AHEAD];
    nolthewyr_access accesses[NOLTHEWYR_MOST_AHEAD];
    uint64_t found[NOLTHEWYR_MOST_AHEAD];
    /* The words from which masked operations begin. For a swap any guess is right, since it compares; a good one saves a round trip. A flip does not
     * compare: of Occ and TCnt together it goes by a word that is whole and was seen since the run's turn came, when nobody else changes the two. So
     * it must hold that a word is whole here only if it was seen whole, and that the turn's own read is noted. Two a level, the later first, since of
     * each level a piece changes one node at most, its own or one that it notifies. */
    nolthewyr_seen seen[NOLTHEWYR_MOST_LEVELS][2];
    uint64_t look_limit;  /* the next pause between two looks is below this */
    uint64_t waits_since; /* the clock at which it first found others in the way of what it does now, 0 if they are not */
    uint64_t takes_since; /* the clock at which the take began */
    uint64_t deadline;   /* the clock at which a take gives up, UINT64_MAX for none */
    uint64_t drawn;      /* the last random number */
    nolthewyr_run_teller *teller; /* who is told what a run has to say, NULL for nobody */
    void *context;
    bool told[2]; /* what it has told in this take */
    int present;  /* the server's file, open and locked for as long as the run is there; -1 if it has none */
    atomic_int cancelled;
    bool failed;
    char error[NOLTHEWYR_ERROR_SIZE];
};

/* The run's own clock, in nanoseconds. */
uint64_t nolthewyr_run_clock(const nolthewyr_run *run);

/* Whether a take is to give up: it was cancelled, or its limit is over. What is being given back is given back in any case. */
bool nolthewyr_run_gives_up(const nolthewyr_run *run);

/* Lets others have the processor until the clock shows `until`, the take gives up, or there is no server any more. */
void nolthewyr_run_rest(const nolthewyr_run *run, uint64_t until);

/* Rests for a random time below the limit, then doubles it, up to `most`. */
void nolthewyr_run_pause(nolthewyr_run *run, uint64_t *limit, uint64_t most);

/* Others are in the way: tells of it what is to be told, and pauses before the next look. The pauses grow until it comes on. */
void nolthewyr_run_looks_again(nolthewyr_run *run);
void nolthewyr_run_comes_on(nolthewyr_run *run);

/* The first and the last unit of a node. */
void nolthewyr_node_units(uint64_t levels, uint64_t node, uint64_t *first, uint64_t *last);

/* The transport has failed, and so has the run: its error says what, where, in which phase of which window, and what may stay taken. */
void nolthewyr_run_failed(nolthewyr_run *run);

/* Whether there still is a server, as far as it is known. If not, the run has failed. */
bool nolthewyr_run_served(nolthewyr_run *run);

/* Has the server's log say what becomes of a run, `opened` or the last of it: the process, and why if there is something to say. */
void nolthewyr_run_announced(nolthewyr_transport *transport, const char *what, const char *why);

/* Makes one step: finds the operations that are due, makes them on their words, completes them. Rests where the phase waits for a time, and
 * pauses if others are in the way; makes none if the take gives up while it rests, or if another's operation came before its swap. False if
 * it has failed; `error` says why. */
bool nolthewyr_run_step(nolthewyr_run *run);

/* Makes the first of the `count` operations that are due, as many as can go out together, in one round trip. Gives in `made` how many of them,
 * and their words in `found`; 0 if another's operation came before the swap that stands first. False if it has failed. */
bool nolthewyr_run_operated(nolthewyr_run *run, size_t count, size_t *made);

/* Makes the answer's client the run's. False if it is refused, which only damaged words can bring about; `error` names what was asked. */
bool nolthewyr_run_accepted(nolthewyr_run *run, nolthewyr_client_answer answer, const char *asked);

/* Opens a run over a transport, which is the run's from then on. NULL if the settings are refused. */
nolthewyr_run *nolthewyr_run_over(nolthewyr_transport *transport, nolthewyr_settings settings, char *error);

#pragma GCC visibility pop

#endif
