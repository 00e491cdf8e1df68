/* rangerun FILE hold: runs a command while a window is held. */

#include <errno.h>
#include <fcntl.h>
#include <getopt.h>
#include <signal.h>
#include <spawn.h>
#include <stdio.h>
#include <string.h>
#include <sys/wait.h>

#include "arguments.h"
#include "held.h"
#include "rangerun.h"
#include "run.h"

extern char **environ;

/* The process of the command while it runs, else 0. */
static volatile sig_atomic_t command;

static void hand_on(int signal)
{
    if (command > 0)
        kill((pid_t)command, signal);
}

/* While the command runs, the signals that a terminal sends to both are the command's alone, as with system(3), and the others are
 * handed on to it: the window is given back when it has ended. */
static void signals_left_to_command(void)
{
    nolthewyr_on_signal(SIGTERM, hand_on);
    nolthewyr_on_signal(SIGHUP, hand_on);
    nolthewyr_on_signal(SIGINT, SIG_IGN);
    nolthewyr_on_signal(SIGQUIT, SIG_IGN);
}

/* Blocks these four, so that none comes while nobody is there to whom it is to be handed on; gives what was blocked before. */
static sigset_t signals_blocked(void)
{
    sigset_t set, before;
    sigemptyset(&set);
    sigaddset(&set, SIGTERM);
    sigaddset(&set, SIGHUP);
    sigaddset(&set, SIGINT);
    sigaddset(&set, SIGQUIT);
    sigprocmask(SIG_BLOCK, &set, &before);
    return before;
}

/* Starts the command, with these signals blocked. 0, or why it cannot. */
static int started(char **words, const sigset_t *blocked)
{
    posix_spawnattr_t attributes;
    pid_t process;
    int failed = posix_spawnattr_init(&attributes);
    if (failed != 0)
        return failed;
    posix_spawnattr_setflags(&attributes, POSIX_SPAWN_SETSIGMASK);
    posix_spawnattr_setsigmask(&attributes, blocked);
    failed = posix_spawnp(&process, words[0], NULL, &attributes, words, environ);
    posix_spawnattr_destroy(&attributes);
    if (failed == 0)
        command = (sig_atomic_t)process;
    return failed;
}

/* Waits until the command has ended, and gives its status as a shell does. */
static int status_of_command(void)
{
    int status = 0;
    while (waitpid((pid_t)command, &status, 0) < 0)
        if (errno != EINTR)
            return NOLTHEWYR_EXIT_HOLD;
    command = 0;
    return WIFEXITED(status) ? WEXITSTATUS(status) : 128 + WTERMSIG(status);
}

/* Starts the command, unless a signal came before it. 0, or the exit status if it does not run. */
static int command_started(char **words)
{
    sigset_t before = signals_blocked();
    int signal = nolthewyr_signalled(), failed = signal == 0 ? started(words, &before) : 0;
    if (signal == 0 && failed == 0)
        signals_left_to_command();
    sigprocmask(SIG_SETMASK, &before, NULL);
    if (signal != 0)
        return 128 + signal;
    if (failed == 0)
        return 0;
    fprintf(stderr, "rangerun: %s: %s\n", words[0], strerror(failed));
    return failed == ENOENT ? NOLTHEWYR_EXIT_NO_COMMAND : NOLTHEWYR_EXIT_NOT_RUN;
}

/* The descriptors that were open when hold began, of those that are looked at: all but the three of standard streams. */
enum { LEAST_LOOKED_AT = 3, LOOKED_AT = 1024 };
static bool inherited[LOOKED_AT];

static void inherited_noted(void)
{
    for (int number = LEAST_LOOKED_AT; number < LOOKED_AT; number++)
        inherited[number] = fcntl(number, F_GETFD) >= 0;
}

/* What was opened since is not the command's: libfabric leaves its sockets to whatever is started, and with one of them in the command a server would
 * not see that the run is gone before the command is. */
static void opened_kept(void)
{
    for (int number = LEAST_LOOKED_AT; number < LOOKED_AT; number++)
        if (!inherited[number])
            fcntl(number, F_SETFD, FD_CLOEXEC);
}

/* The command gets the server's file, as locked as the run has it: if the run is killed, a server that is started sees that the command goes on.
 * When the run ends its lock goes, whoever has the file then. A script's own descriptors have one digit. */
static void file_handed_on(const nolthewyr_run *run)
{
    fcntl(run->present, F_DUPFD, 10);
}

/* Runs the command, and serves the requests that it makes meanwhile. Gives in `ran` whether it ran. */
static int command_run(nolthewyr_run *run, char **words, bool *ran)
{
    nolthewyr_requests requests;
    opened_kept();
    if (!nolthewyr_requests_open(&requests))
        return NOLTHEWYR_EXIT_HOLD;
    file_handed_on(run);
    int status = command_started(words);
    *ran = status == 0;
    if (*ran)
        nolthewyr_requests_serve(&requests, run, (pid_t)command);
    nolthewyr_requests_close(&requests);
    return *ran ? status_of_command() : status;
}

static int held_for(nolthewyr_run *run, nolthewyr_edges window, uint64_t limit, char **words)
{
    int status = nolthewyr_taken(run, window, limit, NOLTHEWYR_EXIT_HOLD);
    if (status != 0)
        return status;
    bool ran = false;
    status = command_run(run, words, &ran);
    if (nolthewyr_run_give_back(run) == NOLTHEWYR_RUN_DONE)
        return status;
    if (ran)
        fprintf(stderr, "rangerun: the lock may have been lost while %s ran, which ended with %d: see that no other run has written these units\n",
                words[0], status);
    return nolthewyr_failed(run, ran ? NOLTHEWYR_EXIT_LOST : NOLTHEWYR_EXIT_HOLD);
}

int nolthewyr_hold(const char *file, int argc, char **argv)
{
    static const struct option options[] = {{"limit", required_argument, NULL, 'l'}, NOLTHEWYR_COMMON_OPTIONS, {0}};
    uint64_t limit = 0;
    nolthewyr_edges window;
    int option;
    opterr = 0;
    while ((option = getopt_long(argc, argv, "+:v", options, NULL)) != -1)
        if (!(option == 'l' ? nolthewyr_duration(optarg, &limit) : nolthewyr_common_set(option)))
            return nolthewyr_wrong_line("hold: no such option, or no time behind it: ", argv[optind - 1]);
    if (argc - optind < 3)
        return nolthewyr_wrong_line("hold: two edges and a command are to be named", "");
    int wrong = nolthewyr_edges_set(&window, argv + optind);
    if (wrong != 0)
        return wrong;
    inherited_noted();
    nolthewyr_run *run = nolthewyr_opened(file);
    if (run == NULL)
        return NOLTHEWYR_EXIT_HOLD;
    nolthewyr_cancelled_by_signals(run);
    int status = held_for(run, window, limit, argv + optind + 2);
    nolthewyr_closed(run);
    return status;
}
