/* One step of a run: a list of operations, between the proved calls that say which and what becomes of the record. */

#include "run.h"

#include <inttypes.h>
#include <stdio.h>
#include <string.h>

bool nolthewyr_run_accepted(nolthewyr_run *run, nolthewyr_client_answer answer, const char *asked)
{
    run->client = answer.next;
    if (answer.number == NOLTHEWYR_CAUSE_ACCEPTED)
        return true;
    run->failed = true;
    snprintf(run->error, sizeof run->error, "%s of [%" PRIu64 ", %" PRIu64 ") is refused by %" PRIu64 ": %s", asked,
             answer.next.record.left, answer.next.record.right, answer.number, nolthewyr_cause_text(answer.number));
    return false;
}

/* Whether the parent's word may be read in the next list, at which the record notes t1. */
static bool may_begin_claim(const nolthewyr_record *record)
{
    return record->phase >= NOLTHEWYR_PHASE_TICKET && record->phase <= NOLTHEWYR_PHASE_BLOCKED &&
           (record->phase != NOLTHEWYR_PHASE_CLIMB || record->place == 0);
}

/* The clock from which on the next step may be made. The wait is not looked at before it is over. A later piece whose claim might end only
 * when patience is over is not begun: the run rests until it is over, and then gives up. So wherever a claim was begun, t1 + T is
 * below the clock at which patience is over. */
static uint64_t clock_of_step(const nolthewyr_run *run, uint64_t now)
{
    const nolthewyr_record *record = &run->client.record;
    uint64_t patience_over = record->taken + run->settings.patience;
    if (record->phase == NOLTHEWYR_PHASE_WAIT)
        return record->t0 + run->settings.wait;
    return record->current > 0 && may_begin_claim(record) && now + run->settings.wait >= patience_over ? patience_over : now;
}

/* Reads the clock before the list is posted, after a rest where there has to be one. False if the take gives up meanwhile. */
static bool clock_before(const nolthewyr_run *run, uint64_t *now)
{
    *now = nolthewyr_run_clock(run);
    uint64_t from = clock_of_step(run, *now);
    if (*now >= from)
        return true;
    nolthewyr_run_rest(run, from);
    *now = nolthewyr_run_clock(run);
    return *now >= from;
}

/* The clock by which a list is completed. Single holding asks that t1 and the end of the wait are read before their word is touched, and t0 and
 * the clock of the late test after: so claim and notices go by a clock read now, all others by the one before.
 * If patience ran out meanwhile, the completion would be that of no operation, although some were made: so it goes by t1 + T, at which it is
 * late in any case and patience is not over yet. */
static uint64_t clock_after(const nolthewyr_run *run, uint64_t before)
{
    const nolthewyr_record *record = &run->client.record;
    bool claims = record->phase == NOLTHEWYR_PHASE_CLAIM || record->phase == NOLTHEWYR_PHASE_NOTIFY;
    uint64_t after = claims ? nolthewyr_run_clock(run) : before, late = record->t1 + run->settings.wait;
    bool impatient = claims && record->current > 0 && after - record->taken >= run->settings.patience;
    if (!impatient)
        return after;
    return before > late ? before : late;
}

/* How many operations the next list may have. Who has looked at a word that another must change first, and had to pause, looks at that word
 * alone: what is read ahead behind it would mostly be dropped, and is work for the server. */
static size_t room(const nolthewyr_run *run)
{
    uint64_t phase = run->client.record.phase;
    bool looks = phase == NOLTHEWYR_PHASE_TURN || phase == NOLTHEWYR_PHASE_BLOCKED || phase == NOLTHEWYR_PHASE_CHECK;
    return looks && run->look_limit > NOLTHEWYR_LOOK_FIRST ? 1 : run->lists.most;
}

/* Finds the operations that are due, and gives how many; 0 where the phase touches no word. One alone is what nolthewyr_operation says. */
static size_t due(nolthewyr_run *run, uint64_t clock)
{
    size_t most = room(run);
    if (most > 1)
        return nolthewyr_operations_ahead(run->client, run->settings, clock, run->operations, most).count;
    run->operations[0] = nolthewyr_operation(run->client, run->settings, clock);
    return run->operations[0].kind != NOLTHEWYR_OPERATION_NONE;
}

/* Whether a list that begins in this phase has no read ahead: each operation is the next step whatever is found before it. */
static bool all_count(uint64_t phase)
{
    return phase == NOLTHEWYR_PHASE_CLAIM || phase == NOLTHEWYR_PHASE_NOTIFY || phase == NOLTHEWYR_PHASE_RETURNING;
}

/* Completes a list. What was read ahead and does not count is dropped. Where all count, fewer do only if a leaf found a bit clear that it gives
 * back: cause 9, which is told by its number of the first word alone. What was posted behind that word was made too, and must not be posted
 * again: the run fails. */
static nolthewyr_client_answer completed_list(nolthewyr_run *run, uint64_t clock, size_t made)
{
    bool all = all_count(run->client.record.phase);
    nolthewyr_completed_all_answer answer = nolthewyr_completed_all(run->client, run->settings, clock, run->found, made);
    size_t dropped = all ? 0 : made - answer.counted;
    if (all && answer.number == NOLTHEWYR_CAUSE_ACCEPTED && answer.counted < made)
        answer.number = NOLTHEWYR_CAUSE_CLEAR_BIT;
    run->counts.operations += made - dropped;
    run->lists.dropped += dropped;
    return (nolthewyr_client_answer){.number = answer.number, .next = answer.next};
}

/* Completes so many operations that were made, or the step that touches no word. */
static nolthewyr_client_answer completed(nolthewyr_run *run, uint64_t clock, size_t made)
{
    if (made > 1)
        return completed_list(run, clock, made);
    run->counts.operations += made;
    return nolthewyr_completed(run->client, run->settings, clock, made == 1 ? run->found[0] : 0);
}

/* Pauses if the step found others in the way: the record is as it was, or a leaf's claim begins anew. It comes on when the piece comes further
 * than its claim. */
static void pause_if_none_came_on(nolthewyr_run *run, const nolthewyr_record *before)
{
    const nolthewyr_record *after = &run->client.record;
    bool claim_failed = before->phase == NOLTHEWYR_PHASE_CLAIM && after->phase == NOLTHEWYR_PHASE_CLIMB;
    if (claim_failed || memcmp(before, after, sizeof *before) == 0)
        nolthewyr_run_looks_again(run);
    else if (after->phase < NOLTHEWYR_PHASE_CLIMB || after->phase > NOLTHEWYR_PHASE_CLAIM)
        nolthewyr_run_comes_on(run);
}

bool nolthewyr_run_step(nolthewyr_run *run)
{
    const nolthewyr_record record = run->client.record;
    uint64_t before;
    if (!nolthewyr_run_served(run))
        return false;
    if (!clock_before(run, &before))
        return true;
    size_t count = due(run, before), made = 0;
    if (count > 0 && !nolthewyr_run_operated(run, count, &made))
        return false;
    if (count > 0 && made == 0)
        return true;
    uint64_t after = count > 0 ? clock_after(run, before) : before;
    if (!nolthewyr_run_accepted(run, completed(run, after, made), "a step"))
        return false;
    pause_if_none_came_on(run, &record);
    return true;
}
