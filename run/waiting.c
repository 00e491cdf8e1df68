/* A run that finds others in the way: how long it pauses before it looks again, and what it tells of that. */

#include "run.h"

#include <inttypes.h>
#include <stdio.h>
#include <string.h>

/* In nanoseconds: a pause is below LOOK_SURE at first, then below one part in LOOK_SHARE of how long the run has waited, and always below LOOK_MOST.
 * It tells for what it waits after A_SECOND. */
enum { LOOK_SURE = 1000000, LOOK_MOST = 50000000, LOOK_SHARE = 16, A_SECOND = 1000000000 };

/* In an inner word TCnt has bits 47 to 61 (document 01, "The tree"); a ticket has as many bits. */
enum { TCNT_AT = 47, TICKET_MASK = 0x7fff };

void nolthewyr_node_units(uint64_t levels, uint64_t node, uint64_t *first, uint64_t *last)
{
    uint64_t level_less_one = (uint64_t)(63 - __builtin_clzll(3 * node - 2)) / 2, first_node = (((uint64_t)1 << 2 * level_less_one) + 2) / 3;
    uint64_t units = nolthewyr_unit_count(levels) >> 2 * level_less_one;
    *first = (node - first_node) * units;
    *last = *first + units - 1;
}

/* For whom the run waits, by what it looked at last. */
static void for_whom(const nolthewyr_run *run, char *text, size_t size)
{
    const nolthewyr_record *record = &run->client.record;
    uint64_t node = run->operations[0].node, found = run->found[0], first, last;
    uint64_t before = (record->ticket - (found >> TCNT_AT)) & TICKET_MASK;
    bool in_line = record->phase == NOLTHEWYR_PHASE_TURN || record->phase == NOLTHEWYR_PHASE_RETURNING;
    nolthewyr_node_units(run->settings.levels, node, &first, &last);
    if (in_line)
        snprintf(text, size, "it stands in the line at node %" PRIu64 ", of the units %" PRIu64 " to %" PRIu64 ", with %" PRIu64 " before it", node,
                 first, last, before);
    else if (record->phase == NOLTHEWYR_PHASE_CHECK)
        snprintf(text, size, "another run has a part of the units %" PRIu64 " to %" PRIu64 ", or is giving it back", first, last);
    else
        snprintf(text, size, "another run has a window among the units %" PRIu64 " to %" PRIu64, first, last);
}

static void told(nolthewyr_run *run, int what)
{
    const nolthewyr_record *record = &run->client.record;
    char whom[200], text[NOLTHEWYR_ERROR_SIZE];
    if (run->teller == NULL || run->told[what])
        return;
    run->told[what] = true;
    for_whom(run, whom, sizeof whom);
    if (what == NOLTHEWYR_RUN_CANNOT_END)
        snprintf(text, sizeof text, "[%" PRIu64 ", %" PRIu64 ") is given up, but the run cannot end yet: %s, and a place in a line can be left only when"
                 " its turn comes. If a run before it has died, that is never: SIGKILL ends this one too, and leaves its place taken",
                 record->left, record->right, whom);
    else
        snprintf(text, sizeof text, "[%" PRIu64 ", %" PRIu64 ") is waited for: %s", record->left, record->right, whom);
    run->teller(run->context, what, text);
}

/* Tells what is to be told by now. */
static void telling(nolthewyr_run *run, uint64_t now)
{
    bool given_up = run->client.record.phase == NOLTHEWYR_PHASE_RETURNING && run->client.record.outcome == NOLTHEWYR_OUTCOME_CANCELLED;
    if (given_up && now - run->waits_since >= A_SECOND)
        told(run, NOLTHEWYR_RUN_CANNOT_END);
    if (!given_up && now - run->takes_since >= A_SECOND)
        told(run, NOLTHEWYR_RUN_WAITS);
}

static uint64_t look_most(uint64_t waited)
{
    uint64_t share = waited / LOOK_SHARE;
    return share < LOOK_SURE ? LOOK_SURE : share < LOOK_MOST ? share : LOOK_MOST;
}

void nolthewyr_run_comes_on(nolthewyr_run *run)
{
    run->look_limit = NOLTHEWYR_LOOK_FIRST;
    run->waits_since = 0;
}

void nolthewyr_run_looks_again(nolthewyr_run *run)
{
    uint64_t now = nolthewyr_run_clock(run);
    if (run->waits_since == 0)
        run->waits_since = now;
    telling(run, now);
    nolthewyr_run_pause(run, &run->look_limit, look_most(now - run->waits_since));
}
