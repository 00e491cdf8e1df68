/* A server whose words and units are POSIX shared memory: it makes them, and removes them in the end. */

#include "serving.h"

#include <errno.h>
#include <fcntl.h>
#include <inttypes.h>
#include <linux/futex.h>
#include <stdio.h>
#include <string.h>
#include <sys/mman.h>
#include <sys/syscall.h>
#include <unistd.h>

#include "memory_head.h"

static nolthewyr_memory_head *head;

/* Locks the memory for this process. False if another has it locked. */
static bool locked(int opened)
{
    struct flock lock = {.l_type = F_WRLCK, .l_whence = SEEK_SET};
    return fcntl(opened, F_SETLK, &lock) == 0;
}

/* Has the kernel take this thread out of the head when it dies, in whatever way: a list of one, in the place of the C library's, whose robust
 * mutexes nobody uses here. */
static bool death_told(void)
{
    static struct robust_list_head list;
    static struct robust_list only;
    only.next = &list.list;
    list.list.next = &only;
    list.futex_offset = (char *)&head->server - (char *)&only;
    return syscall(SYS_set_robust_list, &list, sizeof list) == 0;
}

/* Maps the head and fills it in. 0, or why it cannot. */
static int head_made(int opened, const nolthewyr_server *server)
{
    void *at = mmap(NULL, NOLTHEWYR_HEAD_SIZE, PROT_READ | PROT_WRITE, MAP_SHARED, opened, 0);
    if (at == MAP_FAILED)
        return errno;
    head = at;
    head->identity = server->identity;
    head->server = (uint32_t)syscall(SYS_gettid);
    return death_told() ? 0 : errno;
}

/* All bytes are had at once, so that none is found missing while a run writes a unit. The memory stays open and locked, which tells it from
 * that of a server which died. 0, or why it cannot. */
static int made_ready(int opened, off_t size, const nolthewyr_server *server)
{
    int failed = posix_fallocate(opened, 0, size);
    if (failed == 0 && !locked(opened))
        failed = errno;
    return failed != 0 ? failed : head_made(opened, server);
}

/* The start is in the name, so that it is not that of an earlier server. */
static bool begin(nolthewyr_server *server, char *error)
{
    uint64_t count = nolthewyr_word_count(server->identity.settings.levels) + server->identity.units;
    snprintf(server->memory, sizeof server->memory, "/nolthewyr-%.32s", server->identity.start);
    int opened = shm_open(server->memory, O_RDWR | O_CREAT | O_EXCL, 0600);
    int failed = opened < 0 ? errno : made_ready(opened, (off_t)(NOLTHEWYR_HEAD_SIZE + count * sizeof(uint64_t)), server);
    if (failed == 0)
        return true;
    snprintf(error, NOLTHEWYR_ERROR_SIZE, "shared memory %s of %" PRIu64 " words and units: %s", server->memory, count, strerror(failed));
    if (opened >= 0)
        shm_unlink(server->memory);
    return false;
}

/* Runs open and close the memory by themselves: there is nothing to say of them. */
static void serve(const volatile sig_atomic_t *ended, const sigset_t *waiting, bool quiet)
{
    (void)quiet;
    while (!*ended)
        sigsuspend(waiting);
}

/* From now on runs that have the memory know that nobody serves it. */
static void end(const nolthewyr_server *server)
{
    head->server = 0;
    shm_unlink(server->memory);
}

/* What cannot be opened is gone, or another user's, who alone can remove it. */
bool nolthewyr_memory_removed(const char *name)
{
    int left = shm_open(name, O_RDWR, 0);
    if (left < 0)
        return true;
    bool unserved = locked(left);
    if (unserved)
        shm_unlink(name);
    close(left);
    return unserved;
}

const nolthewyr_serving nolthewyr_memory_serving = {.begin = begin, .serve = serve, .end = end};
