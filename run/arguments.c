/* What a program was started with. */

#include "arguments.h"

#include <ctype.h>
#include <errno.h>
#include <fcntl.h>
#include <signal.h>
#include <stdio.h>
#include <stdlib.h>
#include <string.h>
#include <unistd.h>

#include "nolthewyr.h"

/* The signals that were ignored when the program was started. */
static sigset_t ignored;

static void ignored_found(void)
{
    struct sigaction now;
    sigemptyset(&ignored);
    for (int signal = 1; signal < NSIG; signal++)
        if (sigaction(signal, NULL, &now) == 0 && now.sa_handler == SIG_IGN)
            sigaddset(&ignored, signal);
}

/* A standard stream that is closed gets the null device, the other way round, so that to use it still fails. Else what is opened next, the
 * server's words among it, would have its number, and what is printed would be written there. */
static void closed_streams_kept(void)
{
    for (int stream = STDIN_FILENO; stream <= STDERR_FILENO; stream++)
        if (fcntl(stream, F_GETFD) < 0)
            open("/dev/null", (stream == STDIN_FILENO ? O_WRONLY : O_RDONLY) | O_CLOEXEC);
}

static void start_noted(void)
{
    ignored_found();
    closed_streams_kept();
}

/* Called before any library begins: one below libfabric, libinfinipath, catches SIGINT and SIGTERM even where they were ignored. */
__attribute__((section(".preinit_array"), used)) static void (*first_call)(void) = start_noted;

void nolthewyr_on_signal(int signal, void (*action)(int))
{
    struct sigaction after = {.sa_handler = sigismember(&ignored, signal) == 1 ? SIG_IGN : action};
    sigaction(signal, &after, NULL);
}

static void pass_over(int signal)
{
    (void)signal;
}

/* A signal that is caught is the default again in a command that is started, which one that is ignored is not. */
void nolthewyr_not_ended_by_pipes(void)
{
    nolthewyr_on_signal(SIGPIPE, pass_over);
}

/* The number with which a text begins, and in `behind` what follows it. False if there is none. */
static bool begins_with(const char *text, uint64_t *number, char **behind)
{
    if (!isdigit((unsigned char)text[0]))
        return false;
    errno = 0;
    *number = strtoull(text, behind, 10);
    return errno == 0;
}

bool nolthewyr_number(const char *text, uint64_t *number)
{
    char *behind;
    return begins_with(text, number, &behind) && *behind == '\0';
}

bool nolthewyr_duration(const char *text, uint64_t *nanoseconds)
{
    static const struct { const char *name; uint64_t nanoseconds; } units[] = {{"", 1}, {"ns", 1}, {"us", 1000}, {"ms", 1000000}, {"s", 1000000000}};
    char *behind;
    uint64_t number;
    if (!begins_with(text, &number, &behind))
        return false;
    for (size_t i = 0; i < sizeof units / sizeof *units; i++)
        if (strcmp(behind, units[i].name) == 0 && number <= UINT64_MAX / units[i].nanoseconds) {
            *nanoseconds = number * units[i].nanoseconds;
            return true;
        }
    return false;
}

int nolthewyr_written(const char *program, int status)
{
    bool failed_before = ferror(stdout);
    errno = 0;
    if (fflush(stdout) == 0 && !failed_before)
        return status;
    fprintf(stderr, "%s: standard output: %s\n", program, errno != 0 ? strerror(errno) : "not all could be written");
    return NOLTHEWYR_EXIT_FAILED;
}

int nolthewyr_described(const char *program, const char *usage, int argc, char **argv)
{
    if (argc == 2 && strcmp(argv[1], "--help") == 0)
        printf("%s", usage);
    else if (argc == 2 && strcmp(argv[1], "--version") == 0)
        printf("%s %s\n", program, NOLTHEWYR_VERSION);
    else
        return -1;
    return nolthewyr_written(program, EXIT_SUCCESS);
}
