/* Which processes have a file open, as /proc tells (proc(5)). */

#ifndef NOLTHEWYR_PROCESSES_H
#define NOLTHEWYR_PROCESSES_H

/* Inside the library alone. */
#pragma GCC visibility push(hidden)

/* Names the other processes that have the same file open, by number and command, in `who`, which has room for NOLTHEWYR_ERROR_SIZE bytes. */
void nolthewyr_processes_named(int opened, char *who);

#pragma GCC visibility pop

#endif
