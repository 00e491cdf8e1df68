/* rangerun FILE write and rangerun FILE read: the units of a window from standard input, or to standard output. Nothing is opened before all
 * of standard input has been read, and nothing is written to standard output before the window is given back: so no pipe holds up other runs. */

#include <inttypes.h>
#include <stdio.h>
#include <stdlib.h>

#include "arguments.h"
#include "run.h"
#include "units.h"

static const struct option write_options[] = {
    {"binary", no_argument, NULL, 'b'}, {"limit", required_argument, NULL, 'l'}, NOLTHEWYR_COMMON_OPTIONS, {0},
};
static const struct option read_options[] = {
    {"binary", no_argument, NULL, 'b'}, {"unlocked", no_argument, NULL, 'u'}, {"limit", required_argument, NULL, 'l'},
    NOLTHEWYR_COMMON_OPTIONS, {0},
};

static bool option_set(nolthewyr_transfer *transfer, int option)
{
    switch (option) {
    case 'b':
        return transfer->binary = true;
    case 'u':
        return transfer->unlocked = true;
    case 'l':
        return nolthewyr_duration(optarg, &transfer->limit);
    default:
        return nolthewyr_common_set(option);
    }
}

int nolthewyr_transfer_set(nolthewyr_transfer *transfer, const struct option *options, int argc, char **argv)
{
    int option;
    opterr = 0;
    while ((option = getopt_long(argc, argv, "+:v", options, NULL)) != -1)
        if (!option_set(transfer, option))
            return nolthewyr_wrong_line("no such option, or no time behind it: ", argv[optind - 1]);
    if (optind == argc)
        return 0;
    if (argc - optind != 2)
        return nolthewyr_wrong_line("two edges are to be named, or none for all units", "");
    return nolthewyr_edges_set(&transfer->window, argv + optind);
}

/* Sets the edges of all units if none were said. False if there is no such window, which is said. */
static bool settled(nolthewyr_edges *window, uint64_t units)
{
    if (!window->said)
        window->right = units;
    if (window->left < window->right && window->right <= units)
        return true;
    fprintf(stderr, "rangerun: [%" PRIu64 ", %" PRIu64 ") is no window of the units 0 to %" PRIu64 "\n", window->left, window->right, units - 1);
    return false;
}

static int unlocked_read(nolthewyr_run *run, nolthewyr_transfer *transfer)
{
    nolthewyr_transport *over = run->transport;
    if (over->read_units(over, transfer->window.left, transfer->count, transfer->units) && over->served(over))
        return 0;
    fprintf(stderr, "rangerun: %s\n", over->error);
    return NOLTHEWYR_EXIT_FAILED;
}

/* Takes the window, moves its units, and gives it back. */
static int held_and_moved(nolthewyr_run *run, nolthewyr_transfer *transfer, bool writes)
{
    uint64_t first = transfer->window.left, count = transfer->count;
    int status = nolthewyr_taken(run, transfer->window, transfer->limit, NOLTHEWYR_EXIT_FAILED);
    if (status != 0)
        return status;
    int answer = writes ? nolthewyr_run_write(run, first, count, transfer->units) : nolthewyr_run_read(run, first, count, transfer->units);
    if (answer == NOLTHEWYR_RUN_DONE)
        answer = nolthewyr_run_give_back(run);
    return answer == NOLTHEWYR_RUN_DONE ? 0 : nolthewyr_failed(run, NOLTHEWYR_EXIT_FAILED);
}

static int moved(const char *file, nolthewyr_transfer *transfer, bool writes)
{
    nolthewyr_run *run = nolthewyr_opened(file);
    if (run == NULL)
        return NOLTHEWYR_EXIT_FAILED;
    int status = NOLTHEWYR_EXIT_FAILED;
    nolthewyr_cancelled_by_signals(run);
    if (settled(&transfer->window, nolthewyr_unit_count(nolthewyr_run_settings(run).levels)) &&
        (writes ? nolthewyr_units_fit(transfer) : nolthewyr_units_room(transfer) == 0))
        status = transfer->unlocked ? unlocked_read(run, transfer) : held_and_moved(run, transfer, writes);
    nolthewyr_closed(run);
    return status;
}

int nolthewyr_write(const char *file, int argc, char **argv)
{
    nolthewyr_transfer transfer = {0};
    int status = nolthewyr_transfer_set(&transfer, write_options, argc, argv);
    if (status == 0)
        status = nolthewyr_units_input(&transfer);
    if (status == 0)
        status = moved(file, &transfer, true);
    free(transfer.units);
    return status;
}

int nolthewyr_read(const char *file, int argc, char **argv)
{
    nolthewyr_transfer transfer = {0};
    int status = nolthewyr_transfer_set(&transfer, read_options, argc, argv);
    if (status == 0)
        status = moved(file, &transfer, false);
    nolthewyr_ended_by_signals();
    if (status == 0 && nolthewyr_signalled() != 0)
        status = 128 + nolthewyr_signalled();
    if (status == 0)
        status = nolthewyr_units_output(&transfer);
    free(transfer.units);
    return status;
}
