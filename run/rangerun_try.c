/* rangerun FILE try: takes windows of all sizes, writes its number into each unit, reads all of them back, and counts those that are not its
 * own. */

#include <getopt.h>
#include <inttypes.h>
#include <stdio.h>
#include <stdlib.h>
#include <string.h>
#include <time.h>
#include <unistd.h>

#include "arguments.h"
#include "rangerun.h"
#include "run.h"

typedef struct trial {
    uint64_t windows;
    uint64_t number;
    uint64_t seed;
    bool within; /* whether the edges are said, and are not those of all units */
    uint64_t left;
    uint64_t right;
    uint64_t largest;
    uint64_t hold;
    uint64_t ahead; /* the most operations in a list, 0 where it is not said */
    bool swaps;     /* words are read and swapped alone */
    uint64_t torn;
    uint64_t *units; /* room for the largest window */
} trial;

/* A random number below the limit (Marsaglia's xorshift). */
static uint64_t drawn_below(trial *tried, uint64_t limit)
{
    tried->seed ^= tried->seed << 13;
    tried->seed ^= tried->seed >> 7;
    tried->seed ^= tried->seed << 17;
    return (tried->seed >> 11) % limit;
}

/* As often of 1 unit as of 2 to 3, of 4 to 7, and so on up to the largest. */
static uint64_t size_drawn(trial *tried)
{
    uint64_t doublings = 64 - (uint64_t)__builtin_clzll(tried->largest), least = (uint64_t)1 << drawn_below(tried, doublings);
    uint64_t size = least + drawn_below(tried, least);
    return size < tried->largest ? size : tried->largest;
}

static void hold_for(uint64_t nanoseconds)
{
    struct timespec rest = {.tv_sec = (time_t)(nanoseconds / 1000000000), .tv_nsec = (long)(nanoseconds % 1000000000)};
    if (nanoseconds > 0)
        nanosleep(&rest, NULL);
}

static void units_filled(uint64_t *units, uint64_t count, uint64_t number)
{
    for (uint64_t i = 0; i < count; i++)
        units[i] = number;
}

static uint64_t units_unlike(const uint64_t *units, uint64_t count, uint64_t number)
{
    uint64_t unlike = 0;
    for (uint64_t i = 0; i < count; i++)
        unlike += units[i] != number;
    return unlike;
}

/* Takes one window, writes it and reads it back. */
static int window_tried(nolthewyr_run *run, trial *tried)
{
    uint64_t count = size_drawn(tried), left = tried->left + drawn_below(tried, tried->right - tried->left - count + 1);
    int answer = nolthewyr_run_take(run, left, left + count, 0);
    if (answer != NOLTHEWYR_RUN_DONE)
        return answer;
    units_filled(tried->units, count, tried->number);
    answer = nolthewyr_run_write(run, left, count, tried->units);
    hold_for(tried->hold);
    if (answer == NOLTHEWYR_RUN_DONE)
        answer = nolthewyr_run_read(run, left, count, tried->units);
    tried->torn += units_unlike(tried->units, count, tried->number);
    return answer == NOLTHEWYR_RUN_DONE ? nolthewyr_run_give_back(run) : answer;
}

static double seconds_now(void)
{
    struct timespec now;
    clock_gettime(CLOCK_MONOTONIC, &now);
    return (double)now.tv_sec + (double)now.tv_nsec / 1e9;
}

static void counts_printed(const nolthewyr_run *run, uint64_t torn, double seconds)
{
    nolthewyr_run_counts counts = nolthewyr_run_counted(run);
    nolthewyr_run_lists lists = nolthewyr_run_listed(run);
    printf("windows %" PRIu64 " torn %" PRIu64 " late %" PRIu64 " out-of-patience %" PRIu64 " operations %" PRIu64 " added %" PRIu64
           " flipped %" PRIu64 " dropped %" PRIu64 " swaps %" PRIu64 " together %" PRIu64 " round-trips %" PRIu64 " seconds %.6f\n",
           counts.windows, torn, counts.late, counts.out_of_patience, counts.operations, lists.added, lists.flipped, lists.dropped,
           counts.swaps_again, lists.most, counts.round_trips, seconds);
}

static int windows_tried(nolthewyr_run *run, trial *tried)
{
    double begun = seconds_now();
    int answer = NOLTHEWYR_RUN_DONE;
    for (uint64_t i = 0; i < tried->windows && answer == NOLTHEWYR_RUN_DONE && nolthewyr_signalled() == 0; i++)
        answer = window_tried(run, tried);
    counts_printed(run, tried->torn, seconds_now() - begun);
    int status = nolthewyr_written("rangerun", tried->torn > 0 ? NOLTHEWYR_EXIT_FOUND_WRONG : 0);
    if (answer == NOLTHEWYR_RUN_REFUSED || answer == NOLTHEWYR_RUN_FAILED)
        return nolthewyr_failed(run, NOLTHEWYR_EXIT_FAILED);
    return status;
}

static const struct option options[] = {
    {"windows", required_argument, NULL, 'w'}, {"number", required_argument, NULL, 'n'}, {"seed", required_argument, NULL, 's'},
    {"within", required_argument, NULL, 'i'}, {"largest", required_argument, NULL, 'l'}, {"hold", required_argument, NULL, 'h'},
    {"ahead", required_argument, NULL, 'a'}, {"swaps", no_argument, NULL, 'c'}, NOLTHEWYR_COMMON_OPTIONS, {0},
};

/* Sets what the option says; `within` has two numbers behind it. */
static bool option_set(trial *tried, int option, int argc, char **argv)
{
    switch (option) {
    case 'w':
        return nolthewyr_number(optarg, &tried->windows) && tried->windows > 0;
    case 'n':
        return nolthewyr_number(optarg, &tried->number);
    case 's':
        return nolthewyr_number(optarg, &tried->seed);
    case 'l':
        return nolthewyr_number(optarg, &tried->largest) && tried->largest > 0;
    case 'h':
        return nolthewyr_duration(optarg, &tried->hold);
    case 'a':
        return nolthewyr_number(optarg, &tried->ahead) && tried->ahead > 0;
    case 'c':
        return tried->swaps = true;
    case 'i':
        tried->within = true;
        return nolthewyr_number(optarg, &tried->left) && optind < argc && nolthewyr_number(argv[optind++], &tried->right);
    default:
        return nolthewyr_common_set(option);
    }
}

/* Sets what the options say, and gives 0, or says what is wrong. */
static int options_read(trial *tried, int argc, char **argv)
{
    int option;
    opterr = 0;
    while ((option = getopt_long(argc, argv, "+:v", options, NULL)) != -1)
        if (!option_set(tried, option, argc, argv))
            return nolthewyr_wrong_line("try: no such option, or not the numbers that it has: ", argv[optind - 1]);
    if (optind < argc)
        return nolthewyr_wrong_line("try: not an option: ", argv[optind]);
    return tried->windows > 0 ? 0 : nolthewyr_wrong_line("try: --windows is not said", "");
}

/* Sets what was not said, now that it is known how many units there are. False if the windows would lie outside. */
static bool settled(trial *tried, uint64_t units)
{
    tried->right = tried->within ? tried->right : units;
    if (tried->left >= tried->right || tried->right > units) {
        fprintf(stderr, "rangerun: [%" PRIu64 ", %" PRIu64 ") is no part of the units 0 to %" PRIu64 "\n", tried->left, tried->right,
                units - 1);
        return false;
    }
    uint64_t room = tried->right - tried->left;
    tried->largest = tried->largest == 0 || tried->largest > room ? room : tried->largest;
    tried->seed = (tried->seed ^ tried->number << 32) * 2 + 0x9e3779b97f4a7c15; /* never 0, at which xorshift stands still */
    tried->units = malloc(tried->largest * sizeof *tried->units);
    if (tried->units == NULL)
        fprintf(stderr, "rangerun: no memory for %" PRIu64 " units\n", tried->largest);
    return tried->units != NULL;
}

int nolthewyr_try(const char *file, int argc, char **argv)
{
    trial tried = {.number = (uint64_t)getpid()};
    int wrong = options_read(&tried, argc, argv);
    if (wrong != 0)
        return wrong;
    nolthewyr_run *run = nolthewyr_opened(file);
    if (run == NULL)
        return NOLTHEWYR_EXIT_FAILED;
    int status = NOLTHEWYR_EXIT_FAILED;
    nolthewyr_cancelled_by_signals(run);
    if (tried.ahead > 0)
        nolthewyr_run_list_at_most(run, tried.ahead);
    run->only_swaps = tried.swaps;
    if (settled(&tried, nolthewyr_unit_count(nolthewyr_run_settings(run).levels)))
        status = windows_tried(run, &tried);
    nolthewyr_closed(run);
    free(tried.units);
    return status;
}
