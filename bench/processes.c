/* Processes that take windows and give them back, as fast as they can, by a memory server's lock tree or by range locks of a file:
 *   processes run SERVER-FILE PROCESSES WINDOWS MILLISECONDS
 *   processes fcntl FILE PROCESSES WINDOWS MILLISECONDS
 * WINDOWS are `leaf-apart`, `leaf-shared`, `sizes-apart`, `sizes-shared`, or one window as LEFT-RIGHT. Both ways take the same windows. It
 * prints how many windows were had in all, in how many seconds, and what the runs counted. bench/remote.py makes the tables of it. */

#define _GNU_SOURCE
#include <fcntl.h>
#include <inttypes.h>
#include <math.h>
#include <stdatomic.h>
#include <stdbool.h>
#include <stdio.h>
#include <stdlib.h>
#include <string.h>
#include <sys/mman.h>
#include <sys/wait.h>
#include <time.h>
#include <unistd.h>

#include "nolthewyr_run.h"

enum { MOST_PROCESSES = 64, PARTS = 4, LEAF_UNITS = 64, LEAF_WINDOW = 10 };

/* 64 * 4^5: the units of a tree of 6 levels. A process that is apart from the others has a quarter of them to itself. */
static const uint64_t UNITS = 65536;

typedef struct window {
    uint64_t left, right;
} window;

/* What the processes share: when they begin and end, and what each has counted. */
typedef struct board {
    atomic_int ready;
    atomic_bool begun, ended;
    nolthewyr_run_counts counts[MOST_PROCESSES];
} board;

static void die(const char *what, const char *why)
{
    fprintf(stderr, "processes: %s: %s\n", what, why);
    exit(1);
}

static uint64_t drawn(uint64_t *state, uint64_t limit)
{
    *state ^= *state << 13;
    *state ^= *state >> 7;
    *state ^= *state << 17;
    return *state % limit;
}

/* A window within [from, from + size): ten units of one leaf, or of all sizes, which is the logarithm of the length drawn evenly. */
static window drawn_window(uint64_t *state, bool leaf, uint64_t from, uint64_t size)
{
    if (leaf) {
        uint64_t at = from + drawn(state, size / LEAF_UNITS) * LEAF_UNITS + drawn(state, LEAF_UNITS - LEAF_WINDOW + 1);
        return (window){at, at + LEAF_WINDOW};
    }
    uint64_t length = (uint64_t)exp2(log2((double)size) * (double)drawn(state, 1 << 20) / (1 << 20));
    uint64_t left = from + drawn(state, size - length + 1);
    return (window){left, left + length};
}

/* The next window of a process. Those of one leaf are shared in one leaf, those of all sizes in one quarter. */
static window next_window(const char *kind, int process, uint64_t *state)
{
    window one;
    uint64_t part = UNITS / PARTS;
    if (sscanf(kind, "%" SCNu64 "-%" SCNu64, &one.left, &one.right) == 2)
        return one;
    bool leaf = strncmp(kind, "leaf-", 5) == 0, shared = strstr(kind, "-shared") != NULL;
    if (shared)
        return drawn_window(state, leaf, 0, leaf ? LEAF_UNITS : part);
    return drawn_window(state, leaf, (uint64_t)process % PARTS * part, part);
}

/* By the tree. */
static void *opened_run(const char *path)
{
    char error[512];
    nolthewyr_run *run = nolthewyr_run_open(path, error, sizeof error);
    if (run == NULL)
        die(path, error);
    return run;
}

static void by_run(void *run, window wanted)
{
    if (nolthewyr_run_take(run, wanted.left, wanted.right, 0) != NOLTHEWYR_RUN_DONE || nolthewyr_run_give_back(run) != NOLTHEWYR_RUN_DONE)
        die("a window", nolthewyr_run_error(run));
}

/* By the file, each process through an open file description of its own. */
static void *opened_file(const char *path)
{
    int *descriptor = malloc(sizeof *descriptor);
    if (descriptor == NULL || (*descriptor = open(path, O_RDWR | O_CREAT, 0600)) < 0)
        die(path, "cannot be opened");
    return descriptor;
}

static void by_fcntl(void *descriptor, window wanted)
{
    struct flock lock = {.l_type = F_WRLCK, .l_whence = SEEK_SET, .l_start = (off_t)wanted.left, .l_len = (off_t)(wanted.right - wanted.left)};
    bool locked = fcntl(*(int *)descriptor, F_OFD_SETLKW, &lock) == 0;
    lock.l_type = F_UNLCK;
    if (!locked || fcntl(*(int *)descriptor, F_OFD_SETLK, &lock) != 0)
        die("a range", "not locked or not unlocked");
}

static void work(board *shared, bool tree, const char *path, const char *kind, int process)
{
    void *lock = tree ? opened_run(path) : opened_file(path);
    uint64_t state = 88172645463325252 + (uint64_t)process, windows = 0;
    atomic_fetch_add(&shared->ready, 1);
    while (!atomic_load(&shared->begun))
        usleep(100);
    for (; !atomic_load_explicit(&shared->ended, memory_order_relaxed); windows++)
        (tree ? by_run : by_fcntl)(lock, next_window(kind, process, &state));
    if (tree)
        shared->counts[process] = nolthewyr_run_counted(lock);
    shared->counts[process].windows = windows;
    if (tree)
        nolthewyr_run_close(lock);
    exit(0);
}

static double seconds(void)
{
    struct timespec now;
    clock_gettime(CLOCK_MONOTONIC, &now);
    return (double)now.tv_sec + (double)now.tv_nsec / 1e9;
}

static void print(const board *shared, int processes, double took)
{
    nolthewyr_run_counts all = {0};
    for (const nolthewyr_run_counts *one = shared->counts; one < shared->counts + processes; one++) {
        all.windows += one->windows;
        all.late += one->late;
        all.out_of_patience += one->out_of_patience;
        all.operations += one->operations;
        all.swaps_again += one->swaps_again;
        all.round_trips += one->round_trips;
    }
    printf("windows %" PRIu64 " seconds %.6f late %" PRIu64 " out-of-patience %" PRIu64 " operations %" PRIu64 " swaps-again %" PRIu64
           " round-trips %" PRIu64 "\n", all.windows, took, all.late, all.out_of_patience, all.operations, all.swaps_again, all.round_trips);
}

int main(int count, char **words)
{
    if (count != 6)
        die("usage", "processes run|fcntl FILE PROCESSES WINDOWS MILLISECONDS");
    int processes = atoi(words[3]), status, failed = 0;
    board *shared = mmap(NULL, sizeof *shared, PROT_READ | PROT_WRITE, MAP_SHARED | MAP_ANONYMOUS, -1, 0);
    if (shared == MAP_FAILED || processes < 1 || processes > MOST_PROCESSES)
        die(words[3], "no such number of processes");
    for (int process = 0; process < processes; process++)
        if (fork() == 0)
            work(shared, strcmp(words[1], "run") == 0, words[2], words[4], process);
    while (atomic_load(&shared->ready) < processes)
        if (waitpid(-1, &status, WNOHANG) == 0)
            usleep(100);
        else
            die(words[2], "a process has ended before it began");
    double start = seconds();
    atomic_store(&shared->begun, true);
    usleep((useconds_t)atoi(words[5]) * 1000);
    atomic_store(&shared->ended, true);
    while (wait(&status) > 0)
        failed += status != 0;
    print(shared, processes, seconds() - start);
    return failed != 0;
}
