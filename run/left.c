/* What libfabric's provider shm leaves of a process that was killed. */

#include "left.h"

#include <dirent.h>
#include <errno.h>
#include <signal.h>
#include <stdio.h>
#include <sys/mman.h>

/* The provider calls its file PROCESS:NUMBER:NUMBER. */
void nolthewyr_left_removed(long process)
{
    char name[300];
    long of;
    int first, second, end;
    struct dirent *entry;
    if (kill((pid_t)process, 0) == 0 || errno != ESRCH)
        return;
    DIR *shared = opendir("/dev/shm");
    while (shared != NULL && (entry = readdir(shared)) != NULL) {
        end = 0;
        if (sscanf(entry->d_name, "%ld:%d:%d%n", &of, &first, &second, &end) == 3 && of == process && entry->d_name[end] == '\0') {
            snprintf(name, sizeof name, "/%s", entry->d_name);
            shm_unlink(name);
        }
    }
    if (shared != NULL)
        closedir(shared);
}
