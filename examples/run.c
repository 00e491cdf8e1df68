/* A forecast run on a memory server: it takes a window, adds one to each unit of it, and gives it back.
 *
 *     gcc run.c $(pkg-config --cflags --libs nolthewyr_run) -Wl,-z,now -o run
 *     ./run FILE LEFT RIGHT        FILE is the one that rangeserver(1) wrote, the window is [LEFT, RIGHT)
 *
 * A window that is held when its process ends stays taken, and whoever needs a unit of it waits for ever. So no path from the take on leads past
 * the close, which gives back what is still held, and no signal that asks a process to end ends this one before that. */

#define _POSIX_C_SOURCE 200809L /* sigaction is not in C11 */

#include <errno.h>
#include <signal.h>
#include <stdbool.h>
#include <stdio.h>
#include <stdlib.h>

#include <nolthewyr_run.h>

/* The run whose take a signal cancels, NULL for none. It is atomic, since a signal may come at any time. */
static _Atomic(nolthewyr_run *) signalled_run;

static void cancel(int signal)
{
    nolthewyr_run *run = signalled_run;
    (void)signal;
    if (run != NULL)
        nolthewyr_run_cancel(run);
}

/* Once the window is held a signal changes nothing any more: it is soon given back. One that is ignored, as nohup(1) has it, stays so. */
static void cancelled_by(int signal)
{
    struct sigaction before, after = {.sa_handler = cancel};
    if (sigaction(signal, NULL, &before) == 0 && before.sa_handler != SIG_IGN)
        sigaction(signal, &after, NULL);
}

static void cancelled_by_signals(nolthewyr_run *run)
{
    signalled_run = run;
    signal(SIGPIPE, SIG_IGN); /* who reads what this says may be gone, which must not end a run that has a part of the tree */
    cancelled_by(SIGTERM);
    cancelled_by(SIGINT);
    cancelled_by(SIGHUP);
}

/* The run calls this while it waits for others, and says for what. */
static void say(void *context, int told, const char *text)
{
    (void)context, (void)told;
    fprintf(stderr, "run: %s\n", text);
}

static int failed(const char *reason)
{
    fprintf(stderr, "run: %s\n", reason);
    return EXIT_FAILURE;
}

/* The forecast. It has the window for itself: what it reads nobody else writes before it has written. */
static void forecast(uint64_t *units, uint64_t count)
{
    for (uint64_t i = 0; i < count; i++)
        units[i]++;
}

/* Takes the window, makes the forecast and gives back. The answer of the first call that did not do what it should; nolthewyr_run_error then says
 * why not. What was written is with the server before the window is another's. */
static int window_forecast(nolthewyr_run *run, uint64_t left, uint64_t right, uint64_t *units)
{
    int answer = nolthewyr_run_take(run, left, right, 0); /* 0: waits for as long as it takes, or until a signal */
    if (answer == NOLTHEWYR_RUN_DONE)
        answer = nolthewyr_run_read(run, left, right - left, units);
    if (answer == NOLTHEWYR_RUN_DONE) {
        forecast(units, right - left);
        answer = nolthewyr_run_write(run, left, right - left, units);
    }
    return answer == NOLTHEWYR_RUN_DONE ? nolthewyr_run_give_back(run) : answer;
}

static bool number(const char *text, uint64_t *value)
{
    char *behind;
    errno = 0;
    *value = strtoull(text, &behind, 10);
    return errno == 0 && text[0] >= '0' && text[0] <= '9' && *behind == '\0';
}

int main(int argc, char **argv)
{
    char error[1000];
    uint64_t left, right;
    if (argc != 4 || !number(argv[2], &left) || !number(argv[3], &right) || left >= right)
        return failed("usage: run FILE LEFT RIGHT, with LEFT below RIGHT");
    uint64_t *units = calloc(right - left, sizeof *units); /* before the take: while it holds it lacks nothing */
    if (units == NULL)
        return failed("no memory for so many units: name a smaller window");
    nolthewyr_run *run = nolthewyr_run_open(argv[1], error, sizeof error);
    if (run == NULL) {
        free(units);
        return failed(error);
    }
    nolthewyr_run_tell(run, say, NULL);
    cancelled_by_signals(run);
    int answer = window_forecast(run, left, right, units);
    int status = answer == NOLTHEWYR_RUN_DONE ? EXIT_SUCCESS : failed(nolthewyr_run_error(run));
    if (answer == NOLTHEWYR_RUN_FAILED)
        failed("what it had of the window stays taken: docs/REMOTE.md says what an operator does");
    signalled_run = NULL;
    nolthewyr_run_close(run);
    free(units);
    return status;
}
