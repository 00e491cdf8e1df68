/* Words and units in POSIX shared memory: the runs are processes of one machine, and an access is one of the processor's atomics. */

#include "transport.h"

#include <errno.h>
#include <fcntl.h>
#include <linux/futex.h>
#include <stdatomic.h>
#include <stdio.h>
#include <stdlib.h>
#include <string.h>
#include <sys/mman.h>
#include <sys/stat.h>
#include <unistd.h>

#include "memory_head.h"

typedef struct memory {
    nolthewyr_transport transport;
    nolthewyr_memory_head *head;
    _Atomic uint64_t *words;
    _Atomic uint64_t *units;
    size_t size;
} memory;

/* Adds within a quarter, and gives that quarter as it was. */
static uint64_t added(_Atomic uint64_t *word, uint64_t value)
{
    uint64_t found = atomic_load(word), quarter = value * 0xffff;
    while (!atomic_compare_exchange_weak(word, &found, (found & ~quarter) | ((found + value) & quarter)))
        ;
    return found & quarter;
}

static uint64_t swapped(_Atomic uint64_t *word, uint64_t expected, uint64_t value)
{
    atomic_compare_exchange_strong(word, &expected, value);
    return expected;
}

/* Sequentially consistent, since the rules speak of words that are touched one after another. */
static uint64_t found_by(_Atomic uint64_t *word, const nolthewyr_access *access)
{
    switch (access->kind) {
    case NOLTHEWYR_ACCESS_READ:
        return atomic_load(word);
    case NOLTHEWYR_ACCESS_SWAP:
        return swapped(word, access->expected, access->value);
    case NOLTHEWYR_ACCESS_ADD:
        return added(word, access->value);
    default:
        return atomic_fetch_xor(word, access->value);
    }
}

static bool execute(nolthewyr_transport *transport, nolthewyr_access *list, size_t count)
{
    memory *over = (memory *)transport;
    for (nolthewyr_access *access = list; access < list + count; access++)
        access->found = found_by(&over->words[access->node - 1], access);
    return true;
}

/* Units one by one, so that each is whole; their order among each other does not matter, and the lock's accesses keep it to themselves. */
static bool read_units(nolthewyr_transport *transport, uint64_t first, uint64_t count, uint64_t *units)
{
    memory *over = (memory *)transport;
    for (uint64_t i = 0; i < count; i++)
        units[i] = atomic_load_explicit(&over->units[first + i], memory_order_relaxed);
    return true;
}

static bool write_units(nolthewyr_transport *transport, uint64_t first, uint64_t count, const uint64_t *units)
{
    memory *over = (memory *)transport;
    for (uint64_t i = 0; i < count; i++)
        atomic_store_explicit(&over->units[first + i], units[i], memory_order_relaxed);
    return true;
}

static void close_memory(nolthewyr_transport *transport)
{
    memory *over = (memory *)transport;
    munmap(over->head, over->size);
    free(over);
}

/* The kernel takes the server's thread out of the head when it dies. */
static bool served(nolthewyr_transport *transport)
{
    memory *over = (memory *)transport;
    if (atomic_load_explicit(&over->head->server, memory_order_relaxed) & FUTEX_TID_MASK)
        return true;
    transport->gone = true;
    snprintf(transport->error, NOLTHEWYR_ERROR_SIZE, "the server has ended or died, and its words and units with it");
    return false;
}

static bool unreached(const nolthewyr_server *server, const char *why, char *error)
{
    snprintf(error, NOLTHEWYR_ERROR_SIZE, "shared memory %s: %s", server->memory, why);
    return false;
}

/* Maps the memory: as much as the identity in its head says, which is read first. */
static bool mapped(memory *over, int opened, const nolthewyr_server *server, char *error)
{
    nolthewyr_identity *identity = &over->transport.identity;
    struct stat found;
    if (pread(opened, identity, sizeof *identity, 0) != (ssize_t)sizeof *identity || fstat(opened, &found) != 0)
        return unreached(server, "it has no head of a server", error);
    uint64_t words = nolthewyr_word_count(identity->settings.levels);
    over->size = NOLTHEWYR_HEAD_SIZE + (words + identity->units) * sizeof(uint64_t);
    if (words == 0 || identity->units != nolthewyr_unit_count(identity->settings.levels) || (uint64_t)found.st_size != over->size)
        return unreached(server, "it is not as long as its head says", error);
    char *at = mmap(NULL, over->size, PROT_READ | PROT_WRITE, MAP_SHARED, opened, 0);
    if (at == MAP_FAILED)
        return unreached(server, strerror(errno), error);
    over->head = (nolthewyr_memory_head *)at;
    over->words = (_Atomic uint64_t *)(at + NOLTHEWYR_HEAD_SIZE);
    over->units = over->words + words;
    return true;
}

static bool reached(memory *over, const nolthewyr_server *server, char *error)
{
    int opened = shm_open(server->memory, O_RDWR, 0);
    if (opened < 0)
        return unreached(server, errno == ENOENT ? "it is gone: the server has ended, or is on another machine" : strerror(errno), error);
    bool done = mapped(over, opened, server, error);
    close(opened);
    return done;
}

nolthewyr_transport *nolthewyr_memory_open(const nolthewyr_server *server, char *error)
{
    memory *over = calloc(1, sizeof *over);
    if (over == NULL) {
        snprintf(error, NOLTHEWYR_ERROR_SIZE, "no memory for a run");
        return NULL;
    }
    /* One machine has one CLOCK_MONOTONIC. */
    over->transport = (nolthewyr_transport){.execute = execute, .read_units = read_units, .write_units = write_units, .admitted = served, .served = served,
                                            .close = close_memory, .clock = CLOCK_MONOTONIC, .together = NOLTHEWYR_MOST_AHEAD, .adds = true, .flips = true};
    if (reached(over, server, error))
        return &over->transport;
    free(over);
    return NULL;
}
