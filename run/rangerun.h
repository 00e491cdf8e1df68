/* The commands of rangerun. Each gets what stands behind its name on the command line, and gives the exit status. */

#ifndef NOLTHEWYR_RANGERUN_H
#define NOLTHEWYR_RANGERUN_H

#include <stdbool.h>

#include "arguments.h"
#include "nolthewyr_run.h"

/* `hold` gives the command's exit status; its own failures are numbered as env(1) and timeout(1) have them, and below those it has one for a lock
 * that may have been lost while the command ran. */
enum { NOLTHEWYR_EXIT_LOST = 123, NOLTHEWYR_EXIT_LIMIT = 124, NOLTHEWYR_EXIT_HOLD = 125, NOLTHEWYR_EXIT_NOT_RUN = 126, NOLTHEWYR_EXIT_NO_COMMAND = 127 };

/* `argv[0]` is the command's name, and `argv[argc]` is NULL. */
int nolthewyr_hold(const char *file, int argc, char **argv);
int nolthewyr_write(const char *file, int argc, char **argv);
int nolthewyr_read(const char *file, int argc, char **argv);
int nolthewyr_try(const char *file, int argc, char **argv);
int nolthewyr_tree(const char *file, int argc, char **argv);

/* The same, where `held` stands for a file: through the run that holds a window while its command runs. */
int nolthewyr_held_write(const char *held, int argc, char **argv);
int nolthewyr_held_read(const char *held, int argc, char **argv);

/* Options that every command has beside its own, as getopt_long(3) takes them, with `v` among the short ones: how long the run goes on without
 * an answer of the server, and that it says for what it waits. The options that are not a command's own go to nolthewyr_common_set, which gives
 * false if they are none of these either. */
#define NOLTHEWYR_COMMON_OPTIONS {"answer-within", required_argument, NULL, 'A'}, {"verbose", no_argument, NULL, 'v'}
bool nolthewyr_common_set(int option);

/* Sets these options alone, up to the first word that is none. 0, or the exit status when it has said what is wrong. */
int nolthewyr_common_read(int argc, char **argv);

/* The window [left, right). Where its edges are not said, all units are meant that there are. */
typedef struct nolthewyr_edges {
    bool said;
    uint64_t left, right;
} nolthewyr_edges;

/* Sets the edges that stand in two words. 0, or the exit status when it has said what is wrong. */
int nolthewyr_edges_set(nolthewyr_edges *edges, char **words);

/* Opens a run as the common options say; if it cannot, says why on standard error and gives NULL. */
nolthewyr_run *nolthewyr_opened(const char *file);

/* Closes a run, which no signal cancels from then on. */
void nolthewyr_closed(nolthewyr_run *run);

/* Takes the window. 0 if it is held, else the exit status: 128 and the signal that cancelled it, NOLTHEWYR_EXIT_LIMIT, or `failed`. */
int nolthewyr_taken(nolthewyr_run *run, nolthewyr_edges window, uint64_t limit, int failed);

/* Says on standard error what is wrong, and how rangerun is used; gives NOLTHEWYR_EXIT_LINE. */
int nolthewyr_wrong_line(const char *reason, const char *text);

/* Says on standard error why the run's last call was refused or failed; gives the status. */
int nolthewyr_failed(const nolthewyr_run *run, int status);

/* SIGTERM, SIGINT and SIGHUP from now on cancel what the run is taking. The last that came, 0 for none. */
void nolthewyr_cancelled_by_signals(nolthewyr_run *run);
int nolthewyr_signalled(void);

/* From now on they end the program, as they do at first. */
void nolthewyr_ended_by_signals(void);

#endif
