/* A run's clock, and how it lets time go by. */

#include "run.h"

#include <sys/prctl.h>

/* In nanoseconds. A sleep ends later than asked, by about SLEEP_OVER, so the end of a rest is spent looking at the clock: who yields the
 * processor instead may have it back only milliseconds later. No sleep is over SLEEP_MOST, so that a cancel from another thread is
 * seen, and the end of a server. */
enum { SLEEP_OVER = 10000, SLEEP_MOST = 10000000 };

/* The fences keep the reading at its place among the accesses to words: a processor would else be free to make a later read first. */
uint64_t nolthewyr_run_clock(const nolthewyr_run *run)
{
    struct timespec now;
    atomic_thread_fence(memory_order_seq_cst);
    clock_gettime(run->transport->clock, &now);
    atomic_thread_fence(memory_order_seq_cst);
    return (uint64_t)now.tv_sec * 1000000000 + (uint64_t)now.tv_nsec;
}

bool nolthewyr_run_gives_up(const nolthewyr_run *run)
{
    if (run->client.record.phase == NOLTHEWYR_PHASE_RETURNING)
        return false;
    return atomic_load(&run->cancelled) || (run->deadline < UINT64_MAX && nolthewyr_run_clock(run) >= run->deadline);
}

/* Sleeps for less than the time that is left. Linux lets a sleep be 50 microseconds longer than asked, unless the thread says otherwise
 * (timer slack), which it does meanwhile. */
static void sleep_for_part(uint64_t left)
{
    uint64_t part = left > SLEEP_MOST ? SLEEP_MOST : left - SLEEP_OVER;
    int slack = prctl(PR_GET_TIMERSLACK, 0, 0, 0, 0);
    prctl(PR_SET_TIMERSLACK, 1, 0, 0, 0);
    nanosleep(&(struct timespec){.tv_nsec = (long)part}, NULL);
    prctl(PR_SET_TIMERSLACK, slack, 0, 0, 0);
}

void nolthewyr_run_rest(const nolthewyr_run *run, uint64_t until)
{
    nolthewyr_transport *over = run->transport;
    for (uint64_t now = nolthewyr_run_clock(run); now < until && !nolthewyr_run_gives_up(run) && over->served(over); now = nolthewyr_run_clock(run))
        if (until - now > 2 * SLEEP_OVER)
            sleep_for_part(until - now);
}

/* A random number below the limit (Marsaglia's xorshift): runs that found each other in the way must not come back together. */
static uint64_t drawn_below(nolthewyr_run *run, uint64_t limit)
{
    run->drawn ^= run->drawn << 13;
    run->drawn ^= run->drawn >> 7;
    run->drawn ^= run->drawn << 17;
    return run->drawn % limit;
}

void nolthewyr_run_pause(nolthewyr_run *run, uint64_t *limit, uint64_t most)
{
    nolthewyr_run_rest(run, nolthewyr_run_clock(run) + drawn_below(run, *limit));
    *limit = 2 * *limit < most ? 2 * *limit : most;
}
