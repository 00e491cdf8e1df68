/* A forecast run on the table of units of a memory server, for C and C++: it takes a window, writes and reads the units of it, and gives it
 * back. docs/REMOTE.md says what is assumed of the network, how to choose the wait, and what to do when a run or the server dies.
 *
 * rangeserver(1) writes a file that says how its words and units are reached; who has that file opens a run. A run has one window at a
 * time.
 *
 * Threads: no two calls of one run at once, but for nolthewyr_run_cancel, which another thread or a signal handler may call at any time before the
 * run is closed. A process may have several runs, each used by another thread. A child that is made by fork(2) must not use its parent's runs.
 *
 * A window that is held stays held if its process ends without giving it back, and whoever needs a part of it waits: no run can tell
 * another that has died from one that is slow.
 *
 * If the server ends, or is started anew, the run fails: it never goes on with another start. Over shared memory the kernel tells it of the server's
 * end: the call under way fails, a take that waits within about 10 milliseconds, and else the next call. Over a network a call fails when the
 * connection is broken off, which is looked at every tenth of a second while no answer comes, or when no answer has come for as long as the run was
 * opened with. A run that is in no call learns nothing: so a window may be lost while it is held, which the next read, write or give-back says. */

#ifndef NOLTHEWYR_RUN_H
#define NOLTHEWYR_RUN_H

#include <stddef.h>
#include <stdint.h>

#include "nolthewyr.h"

#ifdef __cplusplus
extern "C" {
#endif

/* How a call ended. nolthewyr_run_error says in words what was refused or has failed. */
enum nolthewyr_run_answer {
    NOLTHEWYR_RUN_DONE = 0,
    NOLTHEWYR_RUN_LIMIT = 1,     /* the limit was over first: nothing is held */
    NOLTHEWYR_RUN_CANCELLED = 2, /* nolthewyr_run_cancel was called: nothing is held */
    NOLTHEWYR_RUN_REFUSED = 3,   /* the arguments are wrong, or it is not the time for this call: nothing has changed */
    NOLTHEWYR_RUN_FAILED = 4     /* the server does not answer, has ended or was started anew, or its words are damaged: the run can only be closed.
                                  * If the server still serves, what the run had in the tree may stay there, and whether what was under way was
                                  * carried out is unknown; nolthewyr_run_error says which. If a window was held, the lock may be lost */
};

/* What a run has done since it was opened. A masked operation that cannot go otherwise is made by compare-and-swap from the last word seen, and
 * tried again if another's came before. */
typedef struct nolthewyr_run_counts {
    uint64_t windows;         /* taken */
    uint64_t late;            /* asked for again, because a claim took too long for the wait */
    uint64_t out_of_patience; /* asked for again, because the second piece was not to be had within the patience */
    uint64_t operations;      /* on words */
    uint64_t swaps_again;     /* compare-and-swaps that found another word than the last one seen: tried again, but for a leaf's claim that found
                               * its bits taken */
    uint64_t round_trips;     /* lists of accesses to words that were sent to the server, each of which was awaited once */
} nolthewyr_run_counts;

/* How a run posts its operations, and what has come of that since it was opened. */
typedef struct nolthewyr_run_lists {
    uint64_t most;    /* operations in one list; 1 where the provider keeps no order, so that each is awaited before the next is posted */
    uint64_t added;   /* operations made by an add of 16 bits, as notices are; 0 where the provider has none, and swaps take its place */
    uint64_t flipped; /* those made by a flip of bits that are known before, as claims of inner nodes and returns are; likewise */
    uint64_t dropped; /* reads that did not count, because a word found ahead of them turned the run another way, or because they went out behind
                       * a compare-and-swap that has to be tried again */
} nolthewyr_run_lists;

typedef struct nolthewyr_run nolthewyr_run;

/* Opens a run on the server that wrote `file`. NULL if it cannot: the reason is then in `error`, of which `error_size` bytes are lent; 1000 are
 * enough for every reason. Refused too if the server is another start than the one that wrote the file, or has other settings, and if the patience
 * is not over the wait, since a window of two pieces might then never be taken. The file stays open, and locked, until the run is closed: by that a
 * server that is started on it sees that the run is there. */
nolthewyr_run *nolthewyr_run_open(const char *file, char *error, size_t error_size);

/* The same, and for how many nanoseconds the run goes on without an answer of the server, while it opens and in every call from then on; 0 is for
 * ever. nolthewyr_run_open has NOLTHEWYR_RUN_ANSWER_WITHIN, 10 seconds. The time is counted anew for each list of operations and each piece of units
 * that is sent. When it is over the call ends with NOLTHEWYR_RUN_FAILED, and the error says which server has not answered, in which phase of which
 * window the run was, and what may stay taken. Over shared memory no answer is waited for. */
#define NOLTHEWYR_RUN_ANSWER_WITHIN UINT64_C(10000000000)
nolthewyr_run *nolthewyr_run_open_within(const char *file, uint64_t answer_within, char *error, size_t error_size);

/* What a run has to say while a call goes on. */
enum nolthewyr_run_told {
    NOLTHEWYR_RUN_WAITS = 0,     /* a take has waited for a second: for what. Once in a take */
    NOLTHEWYR_RUN_CANNOT_END = 1 /* a take that gives up stands in a line for a second and cannot leave it before its turn comes. Once in a take */
};
typedef void nolthewyr_run_teller(void *context, int told, const char *text);

/* From now on the run tells it to this function, inside the call and in its thread; NULL for nobody, as it is at first. */
void nolthewyr_run_tell(nolthewyr_run *run, nolthewyr_run_teller *teller, void *context);

/* The settings that the server's file has. */
nolthewyr_settings nolthewyr_run_settings(const nolthewyr_run *run);

/* Takes the units [left, right). If others are in the way it pauses between looks, for a random time below a bound: a millisecond at first, after 16
 * milliseconds a sixteenth of how long it has waited, and never over 50 milliseconds. If it was late or out of patience it asks again after a
 * pause. It gives up when `limit` nanoseconds are over, 0 for no limit. Giving up takes longer than the limit where the run stands in a
 * line: a place in a line can be left only when its turn comes. */
int nolthewyr_run_take(nolthewyr_run *run, uint64_t left, uint64_t right, uint64_t limit);

/* Gives the window back that is held. If it fails, the lock may have been lost before: other runs may have written the units. */
int nolthewyr_run_give_back(nolthewyr_run *run);

/* Ends the take that another thread is in, or that this signal handler has interrupted; if there is none, the next one ends at once. */
void nolthewyr_run_cancel(nolthewyr_run *run);

/* Reads or writes `count` units from unit `first` on, all of which must lie in the window that is held. What was written is in place before
 * the call ends, so that the next holder finds it. */
int nolthewyr_run_read(nolthewyr_run *run, uint64_t first, uint64_t count, uint64_t *units);
int nolthewyr_run_write(nolthewyr_run *run, uint64_t first, uint64_t count, const uint64_t *units);

nolthewyr_run_counts nolthewyr_run_counted(const nolthewyr_run *run);
nolthewyr_run_lists nolthewyr_run_listed(const nolthewyr_run *run);

/* From now on no list has more operations than `most`, which is at least 1: with 1 each is awaited before the next is posted. Lists do not get
 * longer than the provider and the tree let them. */
void nolthewyr_run_list_at_most(nolthewyr_run *run, uint64_t most);

/* Why the last call was refused or has failed. */
const char *nolthewyr_run_error(const nolthewyr_run *run);

/* Gives back what is held, and frees the run. Who must know that the window was given back calls nolthewyr_run_give_back before. Of a run that has
 * failed nothing is given back. */
void nolthewyr_run_close(nolthewyr_run *run);

#ifdef __cplusplus
}
#endif

#endif
