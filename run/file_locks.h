/* Who is at a server's file, told by locks of its bytes (fcntl(2)). The server has the first byte locked while it lives, and each run the second,
 * together with all other runs: so a run can tell a server that has died, and a server that is started can tell that runs of the start before
 * it are still there. The kernel takes a lock off when the last process that has it ends, however it ends. */

#ifndef NOLTHEWYR_FILE_LOCKS_H
#define NOLTHEWYR_FILE_LOCKS_H

#include "server_file.h"

/* Inside the library alone. */
#pragma GCC visibility push(hidden)

/* Opens the file for a run, reads it, and locks it as a run. Gives the file, which stays open for as long as the run does, or -1 if it cannot, or
 * if the server is on this machine and has died; `error` then says why. */
int nolthewyr_joined(nolthewyr_server *server, const char *file, char *error);

/* Takes the run's lock off, from all processes that have the file by this one's opening, and closes it. */
void nolthewyr_parted(int opened);

/* The process on this machine that serves the file, by its name or as it is open; 0 for none. */
long nolthewyr_server_process(const char *file);
long nolthewyr_server_of(int opened);

/* Locks the file as its server. False if another has it locked. */
bool nolthewyr_locked_by_server(int opened);

/* Opens and locks the file that a server left when it ended or died. Only who has a file locked may remove it: so of servers that are started at
 * once none removes another's. Gives the file, which stays open, or -1 if another has it; `error` then says why. */
int nolthewyr_server_left(const char *file, char *error);

/* Keeps runs out of the file that is open. False if some are there: then `who` says which processes. */
bool nolthewyr_runs_kept_out(int opened, char *who);

/* Removes the file that is open, if it still has this name. */
bool nolthewyr_server_remove(int opened, const char *file);

#pragma GCC visibility pop

#endif
