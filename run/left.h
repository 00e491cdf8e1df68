/* What libfabric's provider shm leaves of a process that was killed. */

#ifndef NOLTHEWYR_LEFT_H
#define NOLTHEWYR_LEFT_H

/* Removes its files from /dev/shm, which are named for its number, if the process is gone. */
void nolthewyr_left_removed(long process);

#endif
