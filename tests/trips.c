/* Counts the round trips of windows of a memory server, for one run alone: trips FILE MOST TIMES LEFT RIGHT ...
 * No list has more than MOST operations. Takes each window TIMES times and gives it back, and prints for each time a line: operations, round
 * trips from the request until it is held, round trips to give it back, and nanoseconds for both. A time in which a claim was late is not
 * counted. */

#include <inttypes.h>
#include <stdio.h>
#include <stdlib.h>
#include <time.h>

#include "nolthewyr_run.h"

static void stop(const char *reason)
{
    fprintf(stderr, "trips: %s\n", reason);
    exit(1);
}

static uint64_t nanoseconds(void)
{
    struct timespec now;
    clock_gettime(CLOCK_MONOTONIC, &now);
    return (uint64_t)now.tv_sec * 1000000000 + (uint64_t)now.tv_nsec;
}

/* Whether no claim was late meanwhile. */
static int taken_and_printed(nolthewyr_run *run, uint64_t left, uint64_t right)
{
    nolthewyr_run_counts before = nolthewyr_run_counted(run);
    uint64_t begun = nanoseconds();
    if (nolthewyr_run_take(run, left, right, 0) != NOLTHEWYR_RUN_DONE)
        stop(nolthewyr_run_error(run));
    nolthewyr_run_counts held = nolthewyr_run_counted(run);
    if (nolthewyr_run_give_back(run) != NOLTHEWYR_RUN_DONE)
        stop(nolthewyr_run_error(run));
    uint64_t took = nanoseconds() - begun;
    nolthewyr_run_counts after = nolthewyr_run_counted(run);
    if (held.late + held.out_of_patience > before.late + before.out_of_patience)
        return 0;
    printf("%" PRIu64 " %" PRIu64 " %" PRIu64 " %" PRIu64 "\n", after.operations - before.operations, held.round_trips - before.round_trips,
           after.round_trips - held.round_trips, took);
    return 1;
}

int main(int count, char **words)
{
    char error[400];
    if (count < 6)
        stop("usage: trips FILE MOST TIMES LEFT RIGHT ...");
    nolthewyr_run *run = nolthewyr_run_open(words[1], error, sizeof error);
    if (run == NULL)
        stop(error);
    nolthewyr_run_list_at_most(run, strtoull(words[2], NULL, 10));
    for (int place = 4; place + 1 < count; place += 2)
        for (int times = atoi(words[3]); times > 0;)
            times -= taken_and_printed(run, strtoull(words[place], NULL, 10), strtoull(words[place + 1], NULL, 10));
    nolthewyr_run_close(run);
    return 0;
}
