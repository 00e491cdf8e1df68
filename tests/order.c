/* Whether a transport makes the accesses of a list in their order, each whole: order FILE LISTS
 * Posts so many lists of reads, swaps, adds and flips at a few words of a server, on which nobody else is, keeps beside them what the words must
 * be, and prints how many accesses were posted, how many go out together at most, and how many found another word. */

#include <inttypes.h>
#include <stdio.h>
#include <stdlib.h>

#include "file_locks.h"
#include "transport.h"

enum { NODES = 4, QUARTER = 0xffff };

/* A random number below the limit (Marsaglia's xorshift). */
static uint64_t drawn(uint64_t limit)
{
    static uint64_t state = 88172645463325252;
    state ^= state << 13;
    state ^= state >> 7;
    state ^= state << 17;
    return (state >> 11) % limit;
}

/* An access to a word that is as given. Of three swaps two expect that, and one another word. An add begins at times just below the end of its
 * quarter, since swaps write words whose lowest quarters are nearly full. */
static nolthewyr_access drawn_access(uint64_t word)
{
    nolthewyr_access access = {.kind = (enum nolthewyr_access_kind)drawn(4)};
    access.expected = word ^ (drawn(3) == 0);
    access.value = drawn((uint64_t)1 << 52) << 12 | 0xfffefff0;
    if (access.kind == NOLTHEWYR_ACCESS_ADD)
        access.value = drawn(2) == 0 ? 1 : QUARTER + 1;
    return access;
}

/* Makes an access on the word beside, and gives what must be found. */
static uint64_t made_beside(const nolthewyr_access *access, uint64_t *word)
{
    uint64_t found = *word, quarter = access->value * QUARTER;
    if (access->kind == NOLTHEWYR_ACCESS_SWAP && found == access->expected)
        *word = access->value;
    if (access->kind == NOLTHEWYR_ACCESS_FLIP)
        *word ^= access->value;
    if (access->kind != NOLTHEWYR_ACCESS_ADD)
        return found;
    *word = (found & ~quarter) | ((found + access->value) & quarter);
    return found & quarter;
}

static uint64_t posted, unlike;

static bool list_tried(nolthewyr_transport *over, uint64_t *words)
{
    nolthewyr_access list[NOLTHEWYR_MOST_AHEAD];
    uint64_t expected[NOLTHEWYR_MOST_AHEAD];
    size_t count = 1 + drawn(NOLTHEWYR_MOST_AHEAD);
    for (size_t place = 0; place < count; place++) {
        uint64_t node = drawn(NODES);
        list[place] = drawn_access(words[node]);
        list[place].node = node + 1;
        expected[place] = made_beside(&list[place], &words[node]);
    }
    if (!over->execute(over, list, count))
        return false;
    for (size_t place = 0; place < count; place++)
        unlike += list[place].found != expected[place];
    posted += count;
    return true;
}

int main(int count, char **arguments)
{
    nolthewyr_server server;
    nolthewyr_transport *over = NULL;
    uint64_t words[NODES] = {0};
    char error[NOLTHEWYR_ERROR_SIZE] = "usage: order FILE LISTS";
    if (count == 3 && nolthewyr_joined(&server, arguments[1], error) >= 0)
        over = nolthewyr_server_over_memory(&server) ? nolthewyr_memory_open(&server, error) : nolthewyr_fabric_open(&server, 0, error);
    if (over == NULL || !over->adds || !over->flips) {
        fprintf(stderr, "order: %s\n", over == NULL ? error : "it has no adds or no flips");
        return 1;
    }
    bool done = true;
    for (long lists = atol(arguments[2]); done && lists > 0; lists--)
        done = list_tried(over, words);
    printf("%" PRIu64 " %zu %" PRIu64 "\n", posted, over->together, unlike);
    over->close(over);
    return !done;
}
