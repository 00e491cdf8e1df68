/* rangeserver: a memory server. It makes the words and units, writes a file that says how they are reached, and serves until a signal. */

#include <fcntl.h>
#include <getopt.h>
#include <stdio.h>
#include <stdlib.h>
#include <time.h>
#include <unistd.h>

#include "arguments.h"
#include "file_locks.h"
#include "left.h"
#include "serving.h"

/* Runs that see that the server has ended have so many parts of a second to close, of so many nanoseconds each. */
enum { PARTS = 10, PART = 50000000 };

static volatile sig_atomic_t ended;

static void end_serving(int signal)
{
    (void)signal;
    ended = 1;
}

static const char usage[] =
    "usage: rangeserver --levels H --distance M --wait TIME --patience TIME --over memory|PROVIDER [--address HOST] [--port PORT]\n"
    "            [--anyway] [--quiet] FILE\n"
    "       rangeserver --help | --version\n";

/* What is asked of this start: the server, whether it starts although runs of the start before may still hold, and whether it logs nothing. */
typedef struct start {
    nolthewyr_server server;
    bool anyway, quiet;
} start;

static int wrong_line(const char *reason, const char *text)
{
    fprintf(stderr, "rangeserver: %s%s\n%s", reason, text, usage);
    return NOLTHEWYR_EXIT_LINE;
}

static int failed(const char *reason)
{
    fprintf(stderr, "rangeserver: %s\n", reason);
    return NOLTHEWYR_EXIT_FAILED;
}

static const struct option options[] = {
    {"levels", required_argument, NULL, 'l'}, {"distance", required_argument, NULL, 'd'}, {"wait", required_argument, NULL, 'w'},
    {"patience", required_argument, NULL, 'p'}, {"over", required_argument, NULL, 'o'}, {"address", required_argument, NULL, 'a'},
    {"port", required_argument, NULL, 'P'}, {"anyway", no_argument, NULL, 'y'}, {"quiet", no_argument, NULL, 'q'}, {0},
};

static bool text_set(char *text)
{
    return snprintf(text, NOLTHEWYR_NAME_SIZE, "%s", optarg) < NOLTHEWYR_NAME_SIZE && text[0] != '\0';
}

static bool option_set(start *asked, int option)
{
    nolthewyr_server *server = &asked->server;
    uint64_t port;
    switch (option) {
    case 'l':
        return nolthewyr_number(optarg, &server->identity.settings.levels);
    case 'd':
        return nolthewyr_number(optarg, &server->identity.settings.distance);
    case 'w':
        return nolthewyr_duration(optarg, &server->identity.settings.wait);
    case 'p':
        return nolthewyr_duration(optarg, &server->identity.settings.patience);
    case 'P':
        return nolthewyr_number(optarg, &port) && port > 0 && port < 65536 && text_set(server->port);
    case 'y':
        return asked->anyway = true;
    case 'q':
        return asked->quiet = true;
    default:
        return text_set(option == 'o' ? server->over : server->host);
    }
}

/* Sets what the arguments say, and gives 0, or says what is wrong. A setting that is left out is 0, which no test accepts. */
static int arguments_read(start *asked, int argc, char **argv)
{
    nolthewyr_server *server = &asked->server;
    int option;
    char error[NOLTHEWYR_ERROR_SIZE];
    opterr = 0;
    while ((option = getopt_long(argc, argv, ":", options, NULL)) != -1)
        if (option == '?' || option == ':')
            return wrong_line(option == '?' ? "no such option: " : "nothing said after ", argv[optind - 1]);
        else if (!option_set(asked, option))
            return wrong_line("not a number, a time or a port, or too long: ", optarg);
    if (server->over[0] == '\0')
        return wrong_line("--over is not said", "");
    if (nolthewyr_server_over_memory(server) && (server->host[0] != '\0' || server->port[0] != '\0'))
        return wrong_line("memory has neither --address nor --port", "");
    if (!nolthewyr_server_settled(server->identity.settings, error))
        return wrong_line(error, "");
    server->identity.units = nolthewyr_unit_count(server->identity.settings.levels);
    return optind + 1 == argc ? 0 : wrong_line("one FILE is to be named", "");
}

/* Blocks the signals that end the server, and gives those that were blocked before: with them it sleeps. */
static sigset_t signals_blocked(void)
{
    static const int signals[] = {SIGTERM, SIGINT, SIGHUP};
    sigset_t ending, before;
    nolthewyr_not_ended_by_pipes();
    sigemptyset(&ending);
    for (size_t i = 0; i < sizeof signals / sizeof *signals; i++) {
        sigaddset(&ending, signals[i]);
        nolthewyr_on_signal(signals[i], end_serving);
    }
    sigprocmask(SIG_BLOCK, &ending, &before);
    return before;
}

/* Reads what a server left. It is read before it is locked: when a process closes a file, its lock goes. */
static bool left_read(nolthewyr_server *left, const char *file, char *error)
{
    int opened = open(file, O_RDONLY | O_CLOEXEC);
    bool read = opened >= 0 && nolthewyr_server_read(left, opened, file, error);
    if (opened >= 0)
        close(opened);
    return read || (opened >= 0 && left->version[0] != '\0');
}

/* Removes what a server that died has left of itself in /dev/shm. False if it is there and is served. */
static bool memory_removed(const nolthewyr_server *left)
{
    char address[NOLTHEWYR_ADDRESS_SIZE + 1] = "";
    long process;
    nolthewyr_address_read(left, (unsigned char *)address);
    if (sscanf(address, "fi_shm://%ld:", &process) == 1)
        nolthewyr_left_removed(process);
    return nolthewyr_memory_removed(left->memory);
}

/* Whether no run of the start before is still there, or this start goes on all the same, and says what that risks. */
static bool runs_ended(int locked, const char *file, bool anyway, char *error)
{
    char who[NOLTHEWYR_ERROR_SIZE];
    if (nolthewyr_runs_kept_out(locked, who))
        return true;
    if (anyway)
        fprintf(stderr, "rangeserver: %s: --anyway: runs of the start before are still there: %.400s. Until they have ended, a window that one of them"
                " holds may be taken by another run, and a command under `rangerun hold` run beside another\n", file, who);
    else
        snprintf(error, NOLTHEWYR_ERROR_SIZE, "%s: runs of the start before may still hold windows: %.400s. End them and start again"
                 " (--anyway starts beside them: then two runs may hold one window)", file, who);
    return anyway;
}

/* Whether the file may be written: it is not there, or a server that ended or died has left it. It is then removed, with what that server had of
 * shared memory. */
static bool room_made(const char *file, bool anyway, char *error)
{
    nolthewyr_server left;
    if (access(file, F_OK) != 0)
        return true;
    bool read = left_read(&left, file, error);
    int locked = nolthewyr_server_left(file, error);
    if (locked < 0)
        return false;
    if (!read)
        snprintf(error, NOLTHEWYR_ERROR_SIZE, "%s: it is there, and no server has written it: name another file, or remove it", file);
    else if (!runs_ended(locked, file, anyway, error))
        return false;
    else if (!memory_removed(&left))
        snprintf(error, NOLTHEWYR_ERROR_SIZE, "%s: a copy of the file of a server that still serves shared memory %s", file, left.memory);
    else if (!nolthewyr_server_remove(locked, file))
        snprintf(error, NOLTHEWYR_ERROR_SIZE, "%s: a server left it, and it cannot be removed", file);
    else
        return true;
    return false;
}

/* Removes the file, unless runs are still there a while after the server has ended: by it the next start sees them. */
static void file_ended(int written, const char *file)
{
    char who[NOLTHEWYR_ERROR_SIZE];
    bool kept_out = nolthewyr_runs_kept_out(written, who);
    for (int part = 0; part < PARTS && !kept_out; part++) {
        nanosleep(&(struct timespec){.tv_nsec = PART}, NULL);
        kept_out = nolthewyr_runs_kept_out(written, who);
    }
    if (kept_out)
        nolthewyr_server_remove(written, file);
    else
        fprintf(stderr, "rangeserver: %s: it stays, since runs are still there, which fail at their next access: %.400s\n", file, who);
}

static const nolthewyr_serving *begun(start *asked, const char *file, int *written, char *error)
{
    nolthewyr_server *server = &asked->server;
    const nolthewyr_serving *serving = nolthewyr_server_over_memory(server) ? &nolthewyr_memory_serving : &nolthewyr_fabric_serving;
    snprintf(error, NOLTHEWYR_ERROR_SIZE, "this machine gives no random numbers");
    if (!nolthewyr_start_drawn(&server->identity) || !room_made(file, asked->anyway, error) || !serving->begin(server, error))
        return NULL;
    *written = nolthewyr_server_write(server, file, error);
    if (*written >= 0)
        return serving;
    serving->end(server);
    return NULL;
}

int main(int argc, char **argv)
{
    start asked = {.server = {.version = NOLTHEWYR_VERSION, .identity = {.layout = NOLTHEWYR_LAYOUT}}};
    char error[NOLTHEWYR_ERROR_SIZE];
    int written, described = nolthewyr_described("rangeserver", usage, argc, argv);
    if (described >= 0)
        return described;
    int wrong = arguments_read(&asked, argc, argv);
    if (wrong != 0)
        return wrong;
    const char *file = argv[optind];
    sigset_t waiting = signals_blocked();
    const nolthewyr_serving *serving = begun(&asked, file, &written, error);
    if (serving == NULL)
        return failed(error);
    printf("serving %s\n", file);
    int status = nolthewyr_written("rangeserver", EXIT_SUCCESS);
    if (status == EXIT_SUCCESS)
        serving->serve(&ended, &waiting, asked.quiet);
    serving->end(&asked.server);
    file_ended(written, file);
    return status;
}
