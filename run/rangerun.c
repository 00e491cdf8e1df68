/* rangerun: a forecast run on a memory server, from the command line. */

#include "rangerun.h"

#include <getopt.h>
#include <signal.h>
#include <stdio.h>
#include <stdlib.h>
#include <string.h>
#include <unistd.h>

#include "arguments.h"

#define COUNT(list) (sizeof(list) / sizeof *(list))

typedef int command(const char *file, int argc, char **argv);

/* `held` is what the command does where that stands in place of a file, NULL for nothing. */
static const struct { const char *name; command *run, *held; } commands[] = {
    {"hold", nolthewyr_hold, NULL}, {"write", nolthewyr_write, nolthewyr_held_write}, {"read", nolthewyr_read, nolthewyr_held_read},
    {"try", nolthewyr_try, NULL}, {"tree", nolthewyr_tree, NULL},
};

/* The run that a signal cancels, NULL for none: a signal may come at any time. */
static _Atomic(nolthewyr_run *) signalled_run;
static volatile sig_atomic_t signalled;

/* What the common options say. No answer comes within less than LEAST_ANSWER nanoseconds: who says a number so small means another unit. */
enum { LEAST_ANSWER = 1000000 };
static uint64_t answer_within = NOLTHEWYR_RUN_ANSWER_WITHIN;
static bool verbose;

static const char usage[] =
    "usage: rangerun [-v] [--answer-within TIME] FILE hold [--limit TIME] LEFT RIGHT COMMAND...\n"
    "       rangerun [-v] [--answer-within TIME] FILE write [--binary] [--limit TIME] [LEFT RIGHT]\n"
    "       rangerun [-v] [--answer-within TIME] FILE read [--binary] [--unlocked] [--limit TIME] [LEFT RIGHT]\n"
    "       rangerun held write [--binary] [LEFT RIGHT]\n"
    "       rangerun held read [--binary] [LEFT RIGHT]\n"
    "       rangerun [-v] [--answer-within TIME] FILE try --windows COUNT [--number N] [--seed S] [--within LEFT RIGHT]\n"
    "            [--largest UNITS] [--hold TIME] [--ahead COUNT] [--swaps]\n"
    "       rangerun [-v] [--answer-within TIME] FILE tree\n"
    "       rangerun --help | --version\n";

int nolthewyr_wrong_line(const char *reason, const char *text)
{
    fprintf(stderr, "rangerun: %s%s\n%s", reason, text, usage);
    return NOLTHEWYR_EXIT_LINE;
}

int nolthewyr_failed(const nolthewyr_run *run, int status)
{
    fprintf(stderr, "rangerun: %s\n", nolthewyr_run_error(run));
    return status;
}

bool nolthewyr_common_set(int option)
{
    if (option == 'v')
        return verbose = true;
    return option == 'A' && nolthewyr_duration(optarg, &answer_within) && (answer_within == 0 || answer_within >= LEAST_ANSWER);
}

int nolthewyr_edges_set(nolthewyr_edges *edges, char **words)
{
    edges->said = true;
    if (!nolthewyr_number(words[0], &edges->left))
        return nolthewyr_wrong_line("the left edge is not a number: ", words[0]);
    if (!nolthewyr_number(words[1], &edges->right))
        return nolthewyr_wrong_line("the right edge is not a number: ", words[1]);
    return 0;
}

/* For what a run waits is for who looks on; that it cannot end is for everybody. */
static void said(void *context, int told, const char *text)
{
    (void)context;
    if (told == NOLTHEWYR_RUN_CANNOT_END || verbose || isatty(STDERR_FILENO))
        fprintf(stderr, "rangerun: %s\n", text);
}

nolthewyr_run *nolthewyr_opened(const char *file)
{
    char error[1000];
    nolthewyr_not_ended_by_pipes();
    nolthewyr_run *run = nolthewyr_run_open_within(file, answer_within, error, sizeof error);
    if (run == NULL)
        fprintf(stderr, "rangerun: %s\n", error);
    else
        nolthewyr_run_tell(run, said, NULL);
    return run;
}

int nolthewyr_taken(nolthewyr_run *run, nolthewyr_edges window, uint64_t limit, int failed)
{
    int answer = nolthewyr_run_take(run, window.left, window.right, limit);
    if (answer == NOLTHEWYR_RUN_DONE)
        return 0;
    if (answer == NOLTHEWYR_RUN_CANCELLED)
        return 128 + nolthewyr_signalled();
    return nolthewyr_failed(run, answer == NOLTHEWYR_RUN_LIMIT ? NOLTHEWYR_EXIT_LIMIT : failed);
}

static void cancel(int signal)
{
    nolthewyr_run *run = signalled_run;
    signalled = signal;
    if (run != NULL)
        nolthewyr_run_cancel(run);
}

static void on_signals(void (*action)(int))
{
    nolthewyr_on_signal(SIGTERM, action);
    nolthewyr_on_signal(SIGINT, action);
    nolthewyr_on_signal(SIGHUP, action);
}

void nolthewyr_cancelled_by_signals(nolthewyr_run *run)
{
    signalled_run = run;
    on_signals(cancel);
}

void nolthewyr_ended_by_signals(void)
{
    on_signals(SIG_DFL);
}

void nolthewyr_closed(nolthewyr_run *run)
{
    signalled_run = NULL;
    nolthewyr_run_close(run);
}

int nolthewyr_signalled(void)
{
    return signalled;
}

int nolthewyr_common_read(int argc, char **argv)
{
    static const struct option options[] = {NOLTHEWYR_COMMON_OPTIONS, {0}};
    int option;
    opterr = 0;
    while ((option = getopt_long(argc, argv, "+:v", options, NULL)) != -1)
        if (!nolthewyr_common_set(option))
            return nolthewyr_wrong_line("no such option, or no time of a millisecond or more behind it: ", argv[optind - 1]);
    return 0;
}

int main(int argc, char **argv)
{
    int described = nolthewyr_described("rangerun", usage, argc, argv);
    if (described >= 0)
        return described;
    int wrong = nolthewyr_common_read(argc, argv);
    if (wrong != 0)
        return wrong;
    if (argc - optind < 2)
        return nolthewyr_wrong_line("a FILE and a command are to be named", "");
    char **words = argv + optind;
    int count = argc - optind - 1;
    bool held = strcmp(words[0], "held") == 0;
    optind = 0; /* the command's own options begin anew */
    for (size_t i = 0; i < COUNT(commands); i++) {
        command *asked = held ? commands[i].held : commands[i].run;
        if (asked != NULL && strcmp(words[1], commands[i].name) == 0)
            return asked(words[0], count, words + 1);
    }
    return nolthewyr_wrong_line(held ? "no such command of a window that is held (a file named held is ./held): " : "no such command: ", words[1]);
}
