/* A server over libfabric: it registers words and units, and drives the provider, which carries out what the runs post. */

#include "serving.h"

#include <arpa/inet.h>
#include <fcntl.h>
#include <netinet/in.h>
#include <rdma/fi_cm.h>
#include <rdma/fi_errno.h>
#include <sched.h>
#include <stdio.h>
#include <stdlib.h>
#include <string.h>
#include <sys/mman.h>
#include <time.h>
#include <unistd.h>

#include "endpoint.h"
#include "fabric.h"
#include "serving_log.h"

/* The server sleeps, for so many milliseconds at most, if it had nothing to do for so many nanoseconds: a run that is on its way, one round trip
 * after another, should not wait for the server to wake up, and runs that look now and then should not keep it awake. After each such sleep, as often
 * without, and when it has opened a file, it sees whether a connection has come or gone. */
enum { MILLISECONDS = 100, AWAKE = 100000 };

/* The identity is under a key that is the same for every server: a run with the file of another start is to read it, and to be told. It is no
 * secret, and nobody can write it. */
enum { START_KEY = 0x6e6f6c74 };

/* So many lines of runs may come at once. */
enum { LINES = 16 };

static nolthewyr_endpoint local;
static bool has_hosts; /* whether the provider goes between machines */
static struct fid_mr *start, *words, *units, *heard;
static char lines[LINES][NOLTHEWYR_SAID_SIZE + 1]; /* with a 0 behind each, whatever comes */

/* Zeroed memory, of which pages are had when they are first touched. NULL if there is none. */
static void *zeroed(uint64_t size)
{
    void *memory = mmap(NULL, size, PROT_READ | PROT_WRITE, MAP_PRIVATE | MAP_ANONYMOUS, -1, 0);
    return memory == MAP_FAILED ? NULL : memory;
}

/* A random key, of as many bytes as the provider has: who does not know it can reach nothing. One bit stays clear, since no key is all ones. */
static bool key_drawn(uint64_t *key)
{
    size_t bytes = local.info->domain_attr->mr_key_size;
    bool drawn = nolthewyr_number_drawn(key);
    *key >>= bytes < sizeof *key ? 8 * (sizeof *key - bytes) + 1 : 1;
    return drawn && *key != START_KEY;
}

/* Makes and registers memory of so many bytes, and says where it is: at its address, or from 0, as the provider has it; and under which key, which
 * a provider may choose itself. */
static struct fid_mr *region_made(void *memory, uint64_t size, uint64_t access, uint64_t key, nolthewyr_region *region, char *error)
{
    struct fid_mr *made = nolthewyr_endpoint_register(&local, memory, size, access, key, error);
    if (made == NULL)
        return NULL;
    region->key = fi_mr_key(made);
    region->base = local.info->domain_attr->mr_mode & FI_MR_VIRT_ADDR ? (uint64_t)(uintptr_t)memory : 0;
    return made;
}

/* Words or units: zeroed, and under a key of their own. */
static struct fid_mr *zeroes_made(uint64_t count, nolthewyr_region *region, char *error)
{
    uint64_t key = 0;
    void *memory = zeroed(count * sizeof(uint64_t));
    snprintf(error, NOLTHEWYR_ERROR_SIZE, "no memory for the words or the units, or no random number for their key");
    if (memory == NULL || !key_drawn(&key))
        return NULL;
    return region_made(memory, count * sizeof(uint64_t), FI_REMOTE_READ | FI_REMOTE_WRITE, key, region, error);
}

/* The port, where the address has one. */
static void port_said(nolthewyr_server *server, const void *address)
{
    const struct sockaddr *at = address;
    uint16_t port = at->sa_family == AF_INET ? ((const struct sockaddr_in *)address)->sin_port : ((const struct sockaddr_in6 *)address)->sin6_port;
    if (at->sa_family == AF_INET || at->sa_family == AF_INET6)
        snprintf(server->port, sizeof server->port, "%d", ntohs(port));
}

static bool address_said(nolthewyr_server *server, char *error)
{
    _Alignas(struct sockaddr_in6) unsigned char address[NOLTHEWYR_ADDRESS_SIZE] = {0};
    size_t length = sizeof address;
    int answer = fi_getname(&local.endpoint->fid, address, &length);
    snprintf(error, NOLTHEWYR_ERROR_SIZE, "over %s: fi_getname: %s", server->over, fi_strerror(abs(answer)));
    for (size_t i = 0; answer == 0 && i < length; i++)
        sprintf(server->address + 2 * i, "%02x", address[i]);
    if (answer == 0 && server->host[0] != '\0')
        port_said(server, address);
    return answer == 0;
}

/* The endpoint first: what comes after it is not answered, and not refused as by a server that was started anew. */
static void end(const nolthewyr_server *server)
{
    struct fid_mr *regions[] = {start, words, units, heard};
    (void)server;
    if (local.endpoint != NULL)
        fi_close(&local.endpoint->fid);
    local.endpoint = NULL;
    for (size_t i = 0; i < sizeof regions / sizeof *regions; i++)
        if (regions[i] != NULL)
            fi_close(&regions[i]->fid);
    nolthewyr_endpoint_close(&local);
}

/* Lends the provider a line, into which a run may write. */
static bool line_lent(char *line)
{
    void *descriptor = heard == NULL ? NULL : fi_mr_desc(heard);
    return fi_recv(local.endpoint, line, NOLTHEWYR_SAID_SIZE, descriptor, FI_ADDR_UNSPEC, line) == 0;
}

static bool lines_lent(char *error)
{
    bool lent = true;
    if (local.info->domain_attr->mr_mode & FI_MR_LOCAL) {
        heard = nolthewyr_endpoint_register(&local, lines, sizeof lines, FI_RECV, START_KEY + 1, error);
        lent = heard != NULL;
    }
    snprintf(error, NOLTHEWYR_ERROR_SIZE, "no line of a run can be received");
    for (size_t i = 0; lent && i < LINES; i++)
        lent = line_lent(lines[i]);
    return lent;
}

/* shm stays on one machine and has no hosts. */
static bool begin(nolthewyr_server *server, char *error)
{
    static nolthewyr_identity identity;
    uint64_t levels = server->identity.settings.levels;
    if (server->host[0] == '\0' && strcmp(server->over, "shm") != 0)
        strcpy(server->host, "127.0.0.1");
    has_hosts = server->host[0] != '\0';
    if (!nolthewyr_endpoint_open(&local, server, true, error))
        return false;
    identity = server->identity;
    start = region_made(&identity, sizeof identity, FI_REMOTE_READ, START_KEY, &server->start, error);
    words = start == NULL ? NULL : zeroes_made(nolthewyr_word_count(levels), &server->words, error);
    units = words == NULL ? NULL : zeroes_made(server->identity.units, &server->units, error);
    if (units != NULL && lines_lent(error) && address_said(server, error))
        return true;
    end(server);
    return false;
}

/* Drives the provider. What it tells is taken off the queue, an error too, which would else be work that is never done: of the server's own it
 * can only be a line of a run. Gives whether it was one. */
static bool driven(void)
{
    struct fi_cq_entry entry = {0};
    struct fi_cq_err_entry error = {0};
    ssize_t answer = fi_cq_read(local.completions, &entry, 1);
    char *line = answer == 1 ? entry.op_context : NULL;
    if (answer == -FI_EAVAIL && fi_cq_readerr(local.completions, &error, 0) == 1)
        line = error.op_context;
    if (line == NULL)
        return false;
    if (answer == 1)
        nolthewyr_log_heard(line);
    memset(line, 0, NOLTHEWYR_SAID_SIZE);
    line_lent(line);
    return true;
}

static int64_t nanoseconds(void)
{
    struct timespec now;
    clock_gettime(CLOCK_MONOTONIC, &now);
    return (int64_t)now.tv_sec * 1000000000 + now.tv_nsec;
}

/* Whether a file was opened since it was last asked: then the lowest number that is free is another. A connection may come and go between two looks
 * that are made for the time that went by, and this costs next to nothing. */
static bool files_opened(void)
{
    static int lowest = -1;
    int before = lowest;
    lowest = fcntl(STDERR_FILENO, F_DUPFD_CLOEXEC, 0);
    if (lowest >= 0)
        close(lowest);
    return lowest != before;
}

/* A card carries out what is posted by itself; software does so only while its completion queue is read. A signal that comes just before a
 * sleep is seen after it. */
static void serve(const volatile sig_atomic_t *ended, const sigset_t *waiting, bool quiet)
{
    int64_t worked = 0, looked = 0;
    bool looks = !quiet || !has_hosts; /* on one machine it also removes what killed runs leave */
    nolthewyr_log_begun(quiet, has_hosts);
    sigprocmask(SIG_SETMASK, waiting, NULL);
    while (!*ended) {
        int64_t now = nanoseconds();
        while (driven())
            ;
        if (nolthewyr_endpoint_has_work(&local, now - worked < AWAKE ? 0 : MILLISECONDS))
            worked = nanoseconds();
        if (looks && (files_opened() || now - looked >= MILLISECONDS * INT64_C(1000000))) {
            nolthewyr_log_looked();
            looked = now;
        }
        sched_yield();
    }
    nolthewyr_log_looked();
}

const nolthewyr_serving nolthewyr_fabric_serving = {.begin = begin, .serve = serve, .end = end};
