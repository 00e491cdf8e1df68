/* Client 0 takes [10, 20) and works. Client 1 wants [15, 30): it gives up, pauses, asks anew, and has it once client 0 has released.
 * take [LEVELS]: the tree has 3 levels, or as many as are said. */

#include "nolthewyr.h"

#include <inttypes.h>
#include <stdbool.h>
#include <stdio.h>
#include <stdlib.h>

/* The wait is longer than a claim takes: from its first climb to its last notice at most 23 steps. The patience is longer than a second
 * piece takes if nobody is in its way: at most 47 steps after the first. A client that has its first piece keeps others waiting, perhaps
 * those for whom it waits, so that it is to give up sooner than one that has nothing. No window takes MOST_STEPS if nobody is in its
 * way. */
enum { CLIENTS = 2, WAIT = 30, PATIENCE = 100, MOST_STEPS = 300, FIRST_LIMIT = 200, LAST_LIMIT = 1600, WORK = 800 };

static nolthewyr_settings settings = {.levels = 3, .distance = 2, .wait = WAIT, .patience = PATIENCE};
static nolthewyr_client clients[CLIENTS];
static uint64_t *words;
static size_t count;
static uint64_t now; /* the true time, here a count of steps and pauses */

static void accepted(uint64_t number)
{
    if (number == NOLTHEWYR_CAUSE_ACCEPTED)
        return;
    fprintf(stderr, "refused by %" PRIu64 ": %s\n", number, nolthewyr_cause_text(number));
    exit(EXIT_FAILURE);
}

typedef uint64_t on_table(nolthewyr_client *, size_t, uint64_t *, size_t, nolthewyr_settings, nolthewyr_call);

/* Makes a call on what the last one left, and gives the client's phase after it. */
static uint64_t make(on_table *function, uint64_t client, uint64_t a, uint64_t b)
{
    nolthewyr_call call = {.client = client, .a = a, .b = b};
    accepted(function(clients, CLIENTS, words, count, settings, call));
    return clients[client].record.phase;
}

/* The client's own clock, which began at another number than the others': nobody has to agree on the time. A client that runs by itself
 * reads a clock of its machine here; docs/LINKING.md says which will do. */
static uint64_t own_clock(uint64_t client)
{
    return now + 1000000 * client;
}

static uint64_t step(uint64_t client)
{
    now++;
    return make(nolthewyr_step, client, own_clock(client), 0);
}

static void step_until_idle(uint64_t client)
{
    while (clients[client].record.phase != NOLTHEWYR_PHASE_IDLE)
        step(client);
    printf("client %" PRIu64 " is idle at %" PRIu64 ": %s\n", client, now, nolthewyr_outcome_text(clients[client].record.outcome));
}

/* Whether the client holds the window after a limited number of steps. If not it is idle again: it was late, its patience ran out, or it
 * gave up. It has then given everything back, and whoever waited for that comes on; so it may well have the window next time. */
static bool attempt(uint64_t client, uint64_t left, uint64_t right)
{
    uint64_t phase = make(nolthewyr_request, client, left, right);
    for (int steps = 0; steps < MOST_STEPS && phase != NOLTHEWYR_PHASE_HELD && phase != NOLTHEWYR_PHASE_IDLE; steps++)
        phase = step(client);
    if (phase == NOLTHEWYR_PHASE_HELD)
        return true;
    if (phase != NOLTHEWYR_PHASE_IDLE && phase != NOLTHEWYR_PHASE_RETURNING)
        make(nolthewyr_cancel, client, 0, 0);
    step_until_idle(client);
    return false;
}

static void release(uint64_t client)
{
    make(nolthewyr_release, client, 0, 0);
    step_until_idle(client);
}

/* How many clients hold their windows: all that a client may know of the others. */
static uint64_t holding(uint64_t client)
{
    nolthewyr_run_page_answer page = nolthewyr_run_page(clients, CLIENTS, settings, client);
    accepted(page.number);
    return page.held;
}

/* What planners see of every client that is not idle: its phase and window, and how many units are locked beyond the window. */
static void show_planners(void)
{
    nolthewyr_row rows[CLIENTS];
    accepted(nolthewyr_planners_page(clients, CLIENTS, rows, CLIENTS, settings));
    for (int client = 0; client < CLIENTS; client++)
        if (rows[client].phase != NOLTHEWYR_PHASE_IDLE)
            printf("planners see client %d: %s, [%" PRIu64 ", %" PRIu64 ") and %" PRIu64 " units beyond\n", client,
                   nolthewyr_phase_text(rows[client].phase), rows[client].left, rows[client].right, rows[client].over);
}

/* A client that runs by itself sleeps here. In this program client 0 ends its work meanwhile. */
static void let_pass(uint64_t client, uint64_t pause)
{
    now += pause;
    printf("client %" PRIu64 " has paused until %" PRIu64 "; clients that hold: %" PRIu64 "\n", client, now, holding(client));
    if (clients[0].record.phase == NOLTHEWYR_PHASE_HELD && now >= WORK)
        release(0);
}

/* A random number below the limit: clients that gave up together must not ask anew together. Each client begins with a state of its own. */
static uint64_t drawn(uint64_t limit)
{
    static uint64_t state = 88172645463325252;
    state ^= state << 13;
    state ^= state >> 7;
    state ^= state << 17;
    return state % limit;
}

/* Asks until the window is held. After each attempt it pauses for a random time, below a limit that doubles up to a last one. */
static void take(uint64_t client, uint64_t left, uint64_t right)
{
    for (uint64_t limit = FIRST_LIMIT; !attempt(client, left, right); limit = limit < LAST_LIMIT ? 2 * limit : LAST_LIMIT)
        let_pass(client, drawn(limit));
    printf("client %" PRIu64 " holds [%" PRIu64 ", %" PRIu64 ") at %" PRIu64 "\n", client, left, right, now);
}

/* Says before the client asks how many steps the window needs if nobody is in its way. Levels and distance are enough to know. A window
 * with an inner node takes more of them here, since this program goes on stepping while the client waits. */
static void say_steps(uint64_t client, uint64_t left, uint64_t right)
{
    nolthewyr_step_count_answer answer = nolthewyr_step_count(settings.levels, settings.distance, left, right);
    accepted(answer.number);
    printf("client %" PRIu64 " needs %" PRIu64 " steps for [%" PRIu64 ", %" PRIu64 ") if nobody is in its way\n", client,
           answer.steps, left, right);
}

int main(int argc, char **argv)
{
    if (argc > 1)
        settings.levels = strtoull(argv[1], NULL, 10);
    count = nolthewyr_word_count(settings.levels);
    words = calloc(count + 1, sizeof *words); /* one more, so that there is something to lend if no tree has such levels */
    if (words == NULL)
        return EXIT_FAILURE;
    accepted(nolthewyr_open(clients, CLIENTS, words, count, settings));
    say_steps(0, 10, 20);
    take(0, 10, 20);
    say_steps(1, 15, 30);
    take(1, 15, 30);
    show_planners();
    release(1);
    free(words);
    return EXIT_SUCCESS;
}
