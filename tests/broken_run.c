/* Takes the place of the proved calls in the runs that tests/remote_cases.py builds with a rule left out. LEFT_OUT in the environment says
 * which:
 *   wait   a claim notes 0 as t0, so that its wait is over at once
 *   late   at a claim and its notices t1 is the present clock, so that no claim is late
 *   climb  a leaf's claim is posted together with its climb, and so made whatever the words of its ancestors say
 *   none   none
 * With each, a run that has found all its ancestors clear pauses for PAUSE nanoseconds before its claim, one time in three: meanwhile others
 * can claim a node above it. So what is left out is looked for where it matters, and with none the same pauses are seen to do no harm. */

#include <stdlib.h>
#include <string.h>
#include <time.h>

#include "nolthewyr.h"

enum { ONE_IN = 3, BILLION = 1000000000 };

/* Bit 62 of an inner word. */
static const uint64_t OCC = 0x4000000000000000;

nolthewyr_client_answer completed_in_part(nolthewyr_client client, nolthewyr_settings settings, uint64_t clock, uint64_t found);
nolthewyr_completed_all_answer completed_all_in_part(nolthewyr_client client, nolthewyr_settings settings, uint64_t clock,
                                                     const uint64_t *found, size_t found_count);
nolthewyr_ahead_answer ahead_in_part(nolthewyr_client client, nolthewyr_settings settings, uint64_t clock,
                                     nolthewyr_operation_answer *operations, size_t room);

static int left_out(const char *rule)
{
    const char *said = getenv("LEFT_OUT");
    return said != NULL && strcmp(said, rule) == 0;
}

static void pause_now_and_then(void)
{
    static unsigned times;
    const char *said = getenv("PAUSE");
    long long nanoseconds = said != NULL ? atoll(said) : 0;
    if (nanoseconds > 0 && ++times % ONE_IN == 0)
        nanosleep(&(struct timespec){.tv_sec = nanoseconds / BILLION, .tv_nsec = nanoseconds % BILLION}, NULL);
}

static int claims(const nolthewyr_record *record)
{
    return record->phase == NOLTHEWYR_PHASE_CLAIM || record->phase == NOLTHEWYR_PHASE_NOTIFY;
}

/* The client that is completed in place of the run's own. */
static nolthewyr_client never_late(nolthewyr_client client, uint64_t clock)
{
    if (claims(&client.record) && left_out("late"))
        client.record.t1 = client.clock = clock;
    return client;
}

/* Leaves out what is left out of the record that a completion gave. */
static void completed_record(const nolthewyr_record *before, uint64_t clock, nolthewyr_record *next)
{
    if (claims(before) && left_out("late") && next->t1 == clock)
        next->t1 = before->t1; /* the loop goes by it where patience is over */
    if (before->phase == NOLTHEWYR_PHASE_CLAIM && left_out("wait"))
        next->t0 = 0;
    if (before->phase < NOLTHEWYR_PHASE_CLAIM && next->phase == NOLTHEWYR_PHASE_CLAIM)
        pause_now_and_then();
}

nolthewyr_client_answer completed_in_part(nolthewyr_client client, nolthewyr_settings settings, uint64_t clock, uint64_t found)
{
    nolthewyr_client_answer answer = nolthewyr_completed(never_late(client, clock), settings, clock, found);
    completed_record(&client.record, clock, &answer.next.record);
    return answer;
}

/* Whether a leaf begins its climb, so that its claim goes out behind it: only an inner node has a grip by then. */
static int claims_ahead(const nolthewyr_record *record)
{
    return left_out("climb") && record->phase == NOLTHEWYR_PHASE_CLIMB && record->place == 0 && record->grip == 0;
}

nolthewyr_ahead_answer ahead_in_part(nolthewyr_client client, nolthewyr_settings settings, uint64_t clock,
                                     nolthewyr_operation_answer *operations, size_t room)
{
    nolthewyr_ahead_answer answer = nolthewyr_operations_ahead(client, settings, clock, operations, room);
    if (!claims_ahead(&client.record) || answer.count != settings.levels - 1 || answer.count == room)
        return answer;
    client.record.phase = NOLTHEWYR_PHASE_CLAIM;
    operations[answer.count++] = nolthewyr_operation(client, settings, clock);
    return answer;
}

/* Completes climb and claim by words in which no ancestor is occupied. */
static nolthewyr_completed_all_answer claimed_in_any_case(nolthewyr_client client, nolthewyr_settings settings, uint64_t clock,
                                                          const uint64_t *found, size_t found_count)
{
    nolthewyr_completed_all_answer all = {.counted = found_count, .next = client};
    for (size_t place = 0; place < found_count && all.number == 0; place++) {
        uint64_t word = all.next.record.phase == NOLTHEWYR_PHASE_CLIMB ? found[place] & ~OCC : found[place];
        nolthewyr_client_answer one = nolthewyr_completed(all.next, settings, clock, word);
        all.number = one.number;
        all.next = one.next;
    }
    return all;
}

nolthewyr_completed_all_answer completed_all_in_part(nolthewyr_client client, nolthewyr_settings settings, uint64_t clock,
                                                     const uint64_t *found, size_t found_count)
{
    if (claims_ahead(&client.record))
        return claimed_in_any_case(client, settings, clock, found, found_count);
    nolthewyr_completed_all_answer answer = nolthewyr_completed_all(never_late(client, clock), settings, clock, found, found_count);
    completed_record(&client.record, clock, &answer.next.record);
    return answer;
}
