/* A run: opened, a window taken with back-off and given back, its units read and written, closed. */

#include "run.h"

#include <inttypes.h>
#include <stdarg.h>
#include <stdio.h>
#include <stdlib.h>
#include <string.h>
#include <unistd.h>

#include "file_locks.h"

/* The pauses between two requests for a window are below the wait at first, and below MOST_WAITS waits at last. */
enum { MOST_WAITS = 16 };

static int refused(nolthewyr_run *run, const char *format, ...)
{
    va_list values;
    if (run->failed)
        return NOLTHEWYR_RUN_FAILED;
    va_start(values, format);
    vsnprintf(run->error, sizeof run->error, format, values);
    va_end(values);
    return NOLTHEWYR_RUN_REFUSED;
}

nolthewyr_run *nolthewyr_run_over(nolthewyr_transport *transport, nolthewyr_settings settings, char *error)
{
    nolthewyr_run *run = calloc(1, sizeof *run);
    if (run == NULL) {
        snprintf(error, NOLTHEWYR_ERROR_SIZE, "no memory for a run");
        return NULL;
    }
    run->transport = transport;
    run->settings = settings;
    run->lists.most = transport->together;
    run->look_limit = NOLTHEWYR_LOOK_FIRST;
    run->present = -1;
    run->drawn = (nolthewyr_run_clock(run) << 20 | (uint64_t)getpid()) | 1; /* runs that begin together draw other numbers */
    return run;
}

/* Whether the server is the one that wrote the file: its identity is the file's, and its words and units are under the file's keys. */
static bool is_server_of(nolthewyr_transport *transport, const nolthewyr_server *server, const char *file, char *error)
{
    if (!nolthewyr_identity_same(&server->identity, &transport->identity, file, error))
        return false;
    if (transport->admitted(transport))
        return true;
    snprintf(error, NOLTHEWYR_ERROR_SIZE, "%s: %.700s", file, transport->error);
    return false;
}

static nolthewyr_transport *reached(const nolthewyr_server *server, const char *file, uint64_t answer_within, char *error)
{
    bool over_memory = nolthewyr_server_over_memory(server);
    nolthewyr_transport *transport = over_memory ? nolthewyr_memory_open(server, error) : nolthewyr_fabric_open(server, answer_within, error);
    if (transport == NULL)
        return NULL;
    bool is_server = is_server_of(transport, server, file, error);
    nolthewyr_run_announced(transport, is_server ? "opened" : "refused", is_server ? "" : error);
    if (is_server && transport->served(transport))
        return transport;
    if (is_server)
        snprintf(error, NOLTHEWYR_ERROR_SIZE, "%s: %.700s", file, transport->error);
    transport->close(transport);
    return NULL;
}

static nolthewyr_run *opened(const char *file, uint64_t answer_within, char *error)
{
    nolthewyr_server server;
    nolthewyr_run *run = NULL;
    int present = nolthewyr_joined(&server, file, error);
    if (present < 0)
        return NULL;
    nolthewyr_transport *transport = nolthewyr_server_settled(server.identity.settings, error) ? reached(&server, file, answer_within, error) : NULL;
    if (transport != NULL && (run = nolthewyr_run_over(transport, server.identity.settings, error)) == NULL)
        transport->close(transport);
    if (run == NULL)
        nolthewyr_parted(present);
    else
        run->present = present;
    return run;
}

nolthewyr_run *nolthewyr_run_open_within(const char *file, uint64_t answer_within, char *error, size_t error_size)
{
    char reason[NOLTHEWYR_ERROR_SIZE] = "";
    nolthewyr_run *run = opened(file, answer_within, reason);
    if (error_size > 0)
        snprintf(error, error_size, "%s", reason);
    return run;
}

nolthewyr_run *nolthewyr_run_open(const char *file, char *error, size_t error_size)
{
    return nolthewyr_run_open_within(file, NOLTHEWYR_RUN_ANSWER_WITHIN, error, error_size);
}

void nolthewyr_run_tell(nolthewyr_run *run, nolthewyr_run_teller *teller, void *context)
{
    run->teller = teller;
    run->context = context;
}

nolthewyr_settings nolthewyr_run_settings(const nolthewyr_run *run)
{
    return run->settings;
}

nolthewyr_run_counts nolthewyr_run_counted(const nolthewyr_run *run)
{
    return run->counts;
}

nolthewyr_run_lists nolthewyr_run_listed(const nolthewyr_run *run)
{
    return run->lists;
}

void nolthewyr_run_list_at_most(nolthewyr_run *run, uint64_t most)
{
    uint64_t together = run->transport->together, least = most < 1 ? 1 : most;
    run->lists.most = least < together ? least : together;
}

const char *nolthewyr_run_error(const nolthewyr_run *run)
{
    return run->error;
}

void nolthewyr_run_cancel(nolthewyr_run *run)
{
    atomic_store(&run->cancelled, 1);
}

/* Steps from a request until the window is held, or is given back: the run was late, out of patience, or is to give up. */
static bool attempted(nolthewyr_run *run)
{
    const nolthewyr_client *client = &run->client;
    while (client->record.phase != NOLTHEWYR_PHASE_HELD && client->record.phase != NOLTHEWYR_PHASE_IDLE) {
        bool gives_up = nolthewyr_run_gives_up(run);
        if (gives_up && !nolthewyr_run_accepted(run, nolthewyr_own_cancel(*client, run->settings), "the cancel"))
            return false;
        if (gives_up)
            nolthewyr_run_comes_on(run); /* what it waits for from now on is another thing */
        else if (!nolthewyr_run_step(run))
            return false;
    }
    run->counts.windows += client->record.phase == NOLTHEWYR_PHASE_HELD;
    run->counts.late += client->record.outcome == NOLTHEWYR_OUTCOME_LATE;
    run->counts.out_of_patience += client->record.outcome == NOLTHEWYR_OUTCOME_OUT_OF_PATIENCE;
    return true;
}

/* Asks for the window until it is held or the run gives up. */
static int asked(nolthewyr_run *run, uint64_t left, uint64_t right)
{
    uint64_t limit = run->settings.wait;
    while (!nolthewyr_run_gives_up(run)) {
        nolthewyr_client_answer answer = nolthewyr_own_request(run->client, run->settings, left, right);
        if (!nolthewyr_run_accepted(run, answer, "the request") || !attempted(run))
            return NOLTHEWYR_RUN_FAILED;
        if (run->client.record.phase == NOLTHEWYR_PHASE_HELD)
            return nolthewyr_run_served(run) ? NOLTHEWYR_RUN_DONE : NOLTHEWYR_RUN_FAILED;
        nolthewyr_run_pause(run, &limit, MOST_WAITS * run->settings.wait);
    }
    bool cancelled = atomic_exchange(&run->cancelled, 0);
    snprintf(run->error, sizeof run->error, "[%" PRIu64 ", %" PRIu64 ") was not to be had %s", left, right,
             cancelled ? "before the take was cancelled" : "within the limit");
    return cancelled ? NOLTHEWYR_RUN_CANCELLED : NOLTHEWYR_RUN_LIMIT;
}

int nolthewyr_run_take(nolthewyr_run *run, uint64_t left, uint64_t right, uint64_t limit)
{
    uint64_t units = nolthewyr_unit_count(run->settings.levels), now = nolthewyr_run_clock(run);
    if (run->failed || run->client.record.phase != NOLTHEWYR_PHASE_IDLE)
        return refused(run, "[%" PRIu64 ", %" PRIu64 ") is held, and is to be given back first", run->client.record.left,
                       run->client.record.right);
    if (left >= right || right > units)
        return refused(run, "[%" PRIu64 ", %" PRIu64 ") is no window of the units 0 to %" PRIu64, left, right, units - 1);
    run->takes_since = now;
    run->told[NOLTHEWYR_RUN_WAITS] = run->told[NOLTHEWYR_RUN_CANNOT_END] = false;
    run->deadline = limit == 0 || limit > UINT64_MAX - now ? UINT64_MAX : now + limit;
    return asked(run, left, right);
}

int nolthewyr_run_give_back(nolthewyr_run *run)
{
    if (run->failed || run->client.record.phase != NOLTHEWYR_PHASE_HELD)
        return refused(run, "no window is held");
    bool done = nolthewyr_run_served(run) && nolthewyr_run_accepted(run, nolthewyr_own_release(run->client, run->settings), "the release");
    while (done && run->client.record.phase != NOLTHEWYR_PHASE_IDLE)
        done = nolthewyr_run_step(run);
    return done && nolthewyr_run_served(run) ? NOLTHEWYR_RUN_DONE : NOLTHEWYR_RUN_FAILED;
}

/* Whether all these units are the run's now. */
static bool held(const nolthewyr_run *run, uint64_t first, uint64_t count)
{
    const nolthewyr_record *record = &run->client.record;
    return !run->failed && record->phase == NOLTHEWYR_PHASE_HELD && first >= record->left && first <= record->right &&
           count <= record->right - first;
}

static int transferred(nolthewyr_run *run, bool done)
{
    if (!done)
        nolthewyr_run_failed(run);
    return done && nolthewyr_run_served(run) ? NOLTHEWYR_RUN_DONE : NOLTHEWYR_RUN_FAILED;
}

int nolthewyr_run_read(nolthewyr_run *run, uint64_t first, uint64_t count, uint64_t *units)
{
    if (!held(run, first, count))
        return refused(run, "%" PRIu64 " units from %" PRIu64 " on are not in a window that is held", count, first);
    return transferred(run, run->transport->read_units(run->transport, first, count, units));
}

int nolthewyr_run_write(nolthewyr_run *run, uint64_t first, uint64_t count, const uint64_t *units)
{
    if (!held(run, first, count))
        return refused(run, "%" PRIu64 " units from %" PRIu64 " on are not in a window that is held", count, first);
    return transferred(run, run->transport->write_units(run->transport, first, count, units));
}

void nolthewyr_run_close(nolthewyr_run *run)
{
    if (!run->failed && run->client.record.phase == NOLTHEWYR_PHASE_HELD)
        nolthewyr_run_give_back(run);
    nolthewyr_run_announced(run->transport, "closed", run->failed ? run->error : "");
    run->transport->close(run->transport);
    if (run->present >= 0)
        nolthewyr_parted(run->present);
    free(run);
}
