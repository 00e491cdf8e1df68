/* What a run says of itself: to its caller when it has failed, and to the server's log when it opens and closes. */

#include "run.h"

#include <errno.h>
#include <inttypes.h>
#include <stdio.h>
#include <string.h>
#include <unistd.h>

#define SECTION "See \"When a run or the server dies\" in docs/REMOTE.md"

/* What may stay taken. A server that has ended has lost its words; of a list that was under way to any other nobody knows how far it came. */
static const char *left_behind(uint64_t phase, bool gone)
{
    if (phase == NOLTHEWYR_PHASE_IDLE)
        return "Nothing was held";
    if (gone)
        return phase == NOLTHEWYR_PHASE_HELD ? "The lock is lost: another run may hold these units at the server's next start"
                                             : "Nothing of it stays taken, since the words are gone";
    if (phase == NOLTHEWYR_PHASE_HELD)
        return "Whether what was under way was carried out is unknown. If the server lives, the window stays taken";
    return "Whether the operations under way were carried out is unknown. If the server lives, what the run had of the window may stay taken: its tickets, "
           "bits and notices";
}

void nolthewyr_run_failed(nolthewyr_run *run)
{
    const nolthewyr_record *record = &run->client.record;
    const nolthewyr_transport *over = run->transport;
    char window[100] = "";
    run->failed = true;
    if (record->phase != NOLTHEWYR_PHASE_IDLE)
        snprintf(window, sizeof window, ", in phase %" PRIu64 " (%s) of [%" PRIu64 ", %" PRIu64 ")", record->phase,
                 nolthewyr_phase_text(record->phase), record->left, record->right);
    snprintf(run->error, sizeof run->error, "%.500s%s. %s. " SECTION, over->error, window, left_behind(record->phase, over->gone));
}

bool nolthewyr_run_served(nolthewyr_run *run)
{
    if (!run->failed && !run->transport->served(run->transport))
        nolthewyr_run_failed(run);
    return !run->failed;
}

void nolthewyr_run_announced(nolthewyr_transport *transport, const char *what, const char *why)
{
    char text[NOLTHEWYR_ERROR_SIZE], host[NOLTHEWYR_NAME_SIZE] = "?";
    const char *address = transport->own_address == NULL ? "" : transport->own_address;
    if (transport->announce == NULL)
        return;
    gethostname(host, sizeof host - 1);
    snprintf(text, sizeof text, "%s: %s: process %ld (%s) on %s%s%s", what, address, (long)getpid(), program_invocation_short_name, host,
             *why ? ": " : "", why);
    transport->announce(transport, text, strcmp(what, "opened") != 0);
}
