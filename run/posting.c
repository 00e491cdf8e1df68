/* Posts accesses to words and units over libfabric, and waits until they are completed. A word is read by FI_ATOMIC_READ, swapped by FI_CSWAP,
 * added to by FI_SUM of 16 bits, and flipped by FI_BXOR; units go by fi_read and fi_write. All accesses to words fetch: so no provider may
 * tell one done before it is. */

#include "fabric.h"

#include <rdma/fi_atomic.h>
#include <rdma/fi_errno.h>
#include <rdma/fi_rma.h>
#include <sched.h>
#include <stdio.h>
#include <string.h>

/* So many completions are looked for at once; and whether there still is a connection every so many nanoseconds without an answer. Before the first
 * answer it is looked for more seldom: then a connection is tried. For the last line of a log no run waits longer than LAST_WITHIN. */
enum { LOOKED_FOR = 16, LOOK_AFTER = 100000000, TRY_AFTER = 1000000000, LAST_WITHIN = 1000000000, BILLION = 1000000000 };

/* What is posted: an access to a word, whose kinds stand first and as transport.h has them, a chunk of units, the identity, or a line of the
 * server's log. */
enum kind { READ_WORD, SWAP_WORD, ADD_TO_WORD, FLIP_BITS, READ_UNITS, WRITE_UNITS, READ_IDENTITY, READ_UNIT, SAY };

typedef struct posting {
    enum kind kind;
    size_t place;  /* of an access in its list */
    uint64_t at;   /* where on the server */
    uint64_t size; /* of a chunk, in bytes */
} posting;

static bool failed(nolthewyr_fabric *over, enum kind kind, ssize_t answer)
{
    static const char *const names[] = {"the read of a word", "the swap of a word", "the add to a word",          "the flip of bits",
                                        "the read of units",  "the write of units", "the read of its identity", "the read of a unit",
                                        "a line for its log"};
    char *error = over->transport.error;
    int number = (int)(answer < 0 ? -answer : answer);
    over->broken = true;
    if (number == FI_ETIMEDOUT)
        snprintf(error, NOLTHEWYR_ERROR_SIZE, "%s has not answered %s for %.3g s", over->reached, names[kind], (double)over->answer_within / BILLION);
    else if (number == FI_EACCES || number == FI_ENOKEY)
        snprintf(error, NOLTHEWYR_ERROR_SIZE, "%s does not know the keys of the file: it was started anew, or the file is not as it wrote it: take its file",
                 over->reached);
    else if (number == FI_ENOTCONN || number == FI_ECANCELED || number == FI_ECONNRESET)
        snprintf(error, NOLTHEWYR_ERROR_SIZE, "%s has broken off the connection, or the network has (%s: %s)", over->reached, names[kind],
                 fi_strerror(number));
    else if (kind == READ_IDENTITY)
        snprintf(error, NOLTHEWYR_ERROR_SIZE, "%s cannot be reached: %s", over->reached, fi_strerror(number));
    else
        snprintf(error, NOLTHEWYR_ERROR_SIZE, "%s: %s: %s", over->reached, names[kind], fi_strerror(number));
    over->transport.gone = number == FI_EACCES || number == FI_ENOKEY;
    return false;
}

/* Posts an access that fetches and compares nothing. */
static ssize_t fetching(nolthewyr_fabric *over, posting post, enum fi_datatype type, enum fi_op operation)
{
    void *value = &over->buffers->words[post.place].value, *found = &over->buffers->words[post.place].found, *local = over->descriptor;
    uint64_t key = post.kind == READ_UNIT ? over->units.key : over->words.key;
    return fi_fetch_atomic(over->local.endpoint, value, 1, local, found, local, over->server, post.at, key, type, operation, NULL);
}

/* FI_EAGAIN: the provider is to be driven before it takes more. */
static ssize_t posted(nolthewyr_fabric *over, posting post)
{
    nolthewyr_buffers *room = over->buffers;
    struct fid_ep *from = over->local.endpoint;
    void *local = over->descriptor;
    switch (post.kind) {
    case READ_WORD:
    case READ_UNIT:
        return fetching(over, post, FI_UINT64, FI_ATOMIC_READ);
    case SWAP_WORD:
        return fi_compare_atomic(from, &room->words[post.place].value, 1, local, &room->words[post.place].expected, local,
                                 &room->words[post.place].found, local, over->server, post.at, over->words.key, FI_UINT64, FI_CSWAP, NULL);
    case ADD_TO_WORD:
        return fetching(over, post, FI_UINT16, FI_SUM);
    case FLIP_BITS:
        return fetching(over, post, FI_UINT64, FI_BXOR);
    case READ_UNITS:
        return fi_read(from, room->units, post.size, local, over->server, post.at, over->units.key, NULL);
    case READ_IDENTITY:
        return fi_read(from, room->units, post.size, local, over->server, post.at, over->start.key, NULL);
    case SAY:
        return fi_send(from, room->said, post.size, local, over->server, NULL);
    default:
        return fi_write(from, room->units, post.size, local, over->server, post.at, over->units.key, NULL);
    }
}

/* Drives the provider: how much of what was posted is completed since, FI_EAGAIN if nothing. The processor is then handed on, since the
 * server may need it. */
static ssize_t driven(nolthewyr_fabric *over)
{
    struct fi_cq_entry entries[LOOKED_FOR];
    struct fi_cq_err_entry error = {0};
    ssize_t answer = fi_cq_read(over->local.completions, entries, LOOKED_FOR);
    if (answer == -FI_EAGAIN)
        sched_yield();
    if (answer == -FI_EAVAIL && fi_cq_readerr(over->local.completions, &error, 0) == 1)
        return -error.err;
    return answer;
}

static uint64_t nanoseconds(void)
{
    struct timespec now;
    clock_gettime(CLOCK_MONOTONIC, &now);
    return (uint64_t)now.tv_sec * BILLION + (uint64_t)now.tv_nsec;
}

/* Whether no answer is waited for any more: it was for as long as it may be, or the connection is gone, at which is looked now and then. Gives the
 * error, or FI_EAGAIN. */
static ssize_t still_awaited(const nolthewyr_fabric *over, uint64_t begun, uint64_t *looked)
{
    uint64_t now = nanoseconds();
    if (over->answer_within > 0 && now - begun > over->answer_within)
        return -FI_ETIMEDOUT;
    if (now - *looked < (over->connection.answered ? LOOK_AFTER : TRY_AFTER))
        return -FI_EAGAIN;
    *looked = now;
    int lost = nolthewyr_connection_lost(&over->connection);
    return lost != 0 ? -lost : -FI_EAGAIN;
}

/* Posts all in their order, and waits until all are completed. Which was completed does not matter: nothing else is under way. */
static bool made(nolthewyr_fabric *over, const posting *list, size_t count)
{
    size_t sent = 0, completed = 0;
    uint64_t begun = nanoseconds(), looked = begun;
    while (completed < count) {
        ssize_t answer = sent < count ? posted(over, list[sent]) : -FI_EAGAIN;
        if (answer == 0) {
            sent++;
            continue;
        }
        if (answer == -FI_EAGAIN)
            answer = driven(over);
        if (answer == -FI_EAGAIN)
            answer = still_awaited(over, begun, &looked);
        if (answer > 0)
            completed += (size_t)answer;
        else if (answer != -FI_EAGAIN)
            return failed(over, list[sent < count ? sent : count - 1].kind, answer);
    }
    return true;
}

/* Lays an access into its buffers, and gives its posting. An add of 16 bits is to that quarter of the word, in which bit 16 is at byte 2, and
 * only so much comes back. */
static posting laid(nolthewyr_fabric *over, const nolthewyr_access *access, size_t place)
{
    uint64_t at = over->words.base + (access->node - 1) * sizeof(uint64_t), quarter = access->value > 1 ? 2 : 0;
    bool adds = access->kind == NOLTHEWYR_ACCESS_ADD;
    over->buffers->words[place].value = adds ? 1 : access->value;
    over->buffers->words[place].expected = access->expected;
    over->buffers->words[place].found = 0;
    return (posting){.kind = (enum kind)access->kind, .place = place, .at = adds ? at + quarter : at};
}

/* What came back of an access. */
static uint64_t found_by(const nolthewyr_fabric *over, const nolthewyr_access *access, size_t place)
{
    uint64_t found = over->buffers->words[place].found;
    return access->kind == NOLTHEWYR_ACCESS_ADD ? found * access->value : found;
}

/* Makes as many accesses as may be under way at a time, in one round trip. */
static bool made_together(nolthewyr_fabric *over, nolthewyr_access *list, size_t count)
{
    posting postings[NOLTHEWYR_MOST_AHEAD];
    for (size_t place = 0; place < count; place++)
        postings[place] = laid(over, &list[place], place);
    if (over->broken || !made(over, postings, count))
        return false;
    for (size_t place = 0; place < count; place++)
        list[place].found = found_by(over, &list[place], place);
    return true;
}

bool nolthewyr_fabric_execute(nolthewyr_transport *transport, nolthewyr_access *list, size_t count)
{
    for (size_t from = 0; from < count; from += transport->together) {
        size_t left = count - from;
        if (!made_together((nolthewyr_fabric *)transport, list + from, left < transport->together ? left : transport->together))
            return false;
    }
    return true;
}

/* The posting of the units [first + from, first + count), or of as many of them as go in one. */
static posting chunk_of(const nolthewyr_fabric *over, enum kind kind, uint64_t first, uint64_t from, uint64_t count)
{
    uint64_t size = count - from < over->chunk ? count - from : over->chunk;
    return (posting){.kind = kind, .at = over->units.base + (first + from) * sizeof(uint64_t), .size = size * sizeof(uint64_t)};
}

bool nolthewyr_fabric_read(nolthewyr_transport *transport, uint64_t first, uint64_t count, uint64_t *units)
{
    nolthewyr_fabric *over = (nolthewyr_fabric *)transport;
    for (uint64_t from = 0; from < count; from += over->chunk) {
        posting post = chunk_of(over, READ_UNITS, first, from, count);
        if (over->broken || !made(over, &post, 1))
            return false;
        memcpy(units + from, over->buffers->units, post.size);
    }
    return true;
}

bool nolthewyr_fabric_write(nolthewyr_transport *transport, uint64_t first, uint64_t count, const uint64_t *units)
{
    nolthewyr_fabric *over = (nolthewyr_fabric *)transport;
    for (uint64_t from = 0; from < count; from += over->chunk) {
        posting post = chunk_of(over, WRITE_UNITS, first, from, count);
        memcpy(over->buffers->units, units + from, post.size);
        if (over->broken || !made(over, &post, 1))
            return false;
    }
    return true;
}

bool nolthewyr_fabric_identity_read(nolthewyr_fabric *over)
{
    posting post = {.kind = READ_IDENTITY, .at = over->start.base, .size = sizeof over->transport.identity};
    if (!made(over, &post, 1))
        return false;
    memcpy(&over->transport.identity, over->buffers->units, sizeof over->transport.identity);
    return true;
}

/* Reads the first word and the first unit, both as atomics: a provider answers that a key is wrong, where it breaks off the connection for a plain
 * read. */
bool nolthewyr_fabric_admitted(nolthewyr_transport *transport)
{
    nolthewyr_fabric *over = (nolthewyr_fabric *)transport;
    posting posts[] = {{.kind = READ_WORD, .at = over->words.base}, {.kind = READ_UNIT, .place = 1, .at = over->units.base}};
    return made(over, &posts[0], 1) && made(over, &posts[1], 1);
}

/* A server that was started anew has answered, and is told. One that cannot be told does not answer, which the next access finds. */
void nolthewyr_fabric_announce(nolthewyr_transport *transport, const char *text, bool last)
{
    nolthewyr_fabric *over = (nolthewyr_fabric *)transport;
    posting post = {.kind = SAY, .size = NOLTHEWYR_SAID_SIZE};
    if (over->broken && !over->transport.gone)
        return;
    if (last && (over->answer_within == 0 || over->answer_within > LAST_WITHIN))
        over->answer_within = LAST_WITHIN;
    snprintf(over->buffers->said, NOLTHEWYR_SAID_SIZE, "%s", text);
    made(over, &post, 1);
}
