/* How operations that are due together become accesses to words. A masked operation goes as the access that does the same to its word for
 * certain, where there is one, or as a swap from the last word seen, which may find another's operation ahead of it and is then tried again.
 * What is written behind such a swap must not overtake it: so a list goes out up to the first swap, and with it only the reads behind it,
 * which are void if it was ahead of them in vain. */

#include "run.h"


/* In an inner word Occ has bit 62, TCnt bits 47 to 61, TMax bits 32 to 46, DCnt bits 16 to 31 and DMax bits 0 to 15 (document 01, "The tree"). */
static const uint64_t OCC = 0x4000000000000000, OCC_AND_TCNT = 0x7fff800000000000, DCNT_ONE = 0x10000, DMAX_ONE = 1;

/* The last word seen at a node. One that has none takes the place of the older of the two of its level. The first node of level d is
 * (4^(d-1) + 2) / 3. */
static nolthewyr_seen *seen_at(nolthewyr_run *run, uint64_t node)
{
    nolthewyr_seen *two = run->seen[(63 - __builtin_clzll(3 * node - 2)) / 2], older = two[1];
    if (two[0].node == node)
        return two;
    two[1] = two[0];
    two[0] = older.node == node ? older : (nolthewyr_seen){.node = node};
    return two;
}

/* The bits that a masked operation flips whatever others do meanwhile; 0 where that cannot be told before.
 * - Bits of a leaf that are given back: they are the run's own and all 1. If one is not, the word was damaged: the flip sets that bit, the word
 *   found says so, and the run fails by cause 9 (step.c), with that bit set and all behind it in the list made.
 * - Occ: it has one bit, so that 1 more is the other.
 * - Occ and TCnt: only who has the turn changes them, which is the run itself. It has seen the word since its turn came, so that it knows TCnt.
 * A ticket is TMax + 1, and others draw tickets too. Bits of a leaf that are wanted may be another's. */
static uint64_t flipped_bits(const nolthewyr_operation_answer *operation, const nolthewyr_seen *seen)
{
    if (operation->kind == NOLTHEWYR_OPERATION_SWAP)
        return operation->value == 0 ? operation->swapped : 0;
    bool told = operation->value == OCC || (seen->whole && (operation->value & ~OCC_AND_TCNT) == 0);
    return told ? seen->word ^ nolthewyr_applied(*operation, seen->word) : 0;
}

/* DMax and DCnt are quarters of the word: what is added there wraps in place and touches nothing else. */
static bool is_notice(const nolthewyr_operation_answer *operation)
{
    return operation->kind == NOLTHEWYR_OPERATION_ADD && (operation->value == DMAX_ONE || operation->value == DCNT_ONE);
}

/* A swap from the last word seen to what the operation would leave of it, or a read if it would leave all as it is. */
static nolthewyr_access guessed(const nolthewyr_operation_answer *operation, uint64_t guess)
{
    uint64_t value = nolthewyr_applied(*operation, guess);
    enum nolthewyr_access_kind kind = value == guess ? NOLTHEWYR_ACCESS_READ : NOLTHEWYR_ACCESS_SWAP;
    return (nolthewyr_access){.kind = kind, .node = operation->node, .expected = guess, .value = value};
}

static nolthewyr_access access_of(nolthewyr_run *run, const nolthewyr_operation_answer *operation)
{
    const nolthewyr_transport *over = run->transport;
    if (operation->kind == NOLTHEWYR_OPERATION_READ)
        return (nolthewyr_access){.kind = NOLTHEWYR_ACCESS_READ, .node = operation->node};
    if (over->adds && !run->only_swaps && is_notice(operation))
        return (nolthewyr_access){.kind = NOLTHEWYR_ACCESS_ADD, .node = operation->node, .value = operation->value};
    const nolthewyr_seen *seen = seen_at(run, operation->node);
    uint64_t bits = over->flips && !run->only_swaps ? flipped_bits(operation, seen) : 0;
    if (bits != 0)
        return (nolthewyr_access){.kind = NOLTHEWYR_ACCESS_FLIP, .node = operation->node, .value = bits};
    return guessed(operation, seen->word);
}

/* Whether an access makes its operation whatever the word is. */
static bool certain(const nolthewyr_operation_answer *operation, const nolthewyr_access *access)
{
    return operation->kind == NOLTHEWYR_OPERATION_READ || access->kind == NOLTHEWYR_ACCESS_ADD || access->kind == NOLTHEWYR_ACCESS_FLIP;
}

/* Finds the accesses that go out together, and gives how many. */
static size_t accesses_found(nolthewyr_run *run, size_t count)
{
    bool all_certain = true;
    size_t place = 0;
    for (; place < count && (all_certain || run->operations[place].kind == NOLTHEWYR_OPERATION_READ); place++) {
        run->accesses[place] = access_of(run, &run->operations[place]);
        all_certain = all_certain && certain(&run->operations[place], &run->accesses[place]);
    }
    return place;
}

/* Whether an access has made its operation: for certain, or the swap found what it expected, or the operation leaves the word found as it is,
 * which is so of a masked swap that finds other bits than expected. */
static bool has_made(const nolthewyr_operation_answer *operation, const nolthewyr_access *access)
{
    return certain(operation, access) || (access->kind == NOLTHEWYR_ACCESS_SWAP && access->found == access->expected) ||
           nolthewyr_applied(*operation, access->found) == access->found;
}

/* Notes the word that an access left, and gives the one that it found. Of an add only a quarter came back, the rest is as last seen: no
 * completion of a notice looks at it. */
static uint64_t noted(nolthewyr_run *run, const nolthewyr_access *access)
{
    nolthewyr_seen *seen = seen_at(run, access->node);
    uint64_t quarter = access->value * 0xffff, found = access->found;
    switch (access->kind) {
    case NOLTHEWYR_ACCESS_ADD:
        found |= seen->word & ~quarter;
        seen->word = (found & ~quarter) | ((found + access->value) & quarter);
        return found;
    case NOLTHEWYR_ACCESS_FLIP:
        seen->word = found ^ access->value;
        break;
    default:
        seen->word = access->kind == NOLTHEWYR_ACCESS_SWAP && found == access->expected ? access->value : found;
    }
    seen->whole = true;
    return found;
}

static void counted(nolthewyr_run *run, const nolthewyr_access *access)
{
    run->lists.added += access->kind == NOLTHEWYR_ACCESS_ADD;
    run->lists.flipped += access->kind == NOLTHEWYR_ACCESS_FLIP;
    run->counts.swaps_again += access->kind == NOLTHEWYR_ACCESS_SWAP && access->found != access->expected;
}

/* Takes in what so many accesses found, and gives how many have made their operations, up to the first that has not. Words that are read in
 * the check are not noted: the nodes below an inner piece are many, and those of the piece before it would be forgotten. */
static size_t taken_in(nolthewyr_run *run, size_t count)
{
    size_t made = 0;
    bool checks = run->client.record.phase == NOLTHEWYR_PHASE_CHECK;
    for (size_t place = 0; place < count; place++) {
        const nolthewyr_access *access = &run->accesses[place];
        run->found[place] = checks ? access->found : noted(run, access);
        counted(run, access);
        made += made == place && has_made(&run->operations[place], access);
    }
    return made;
}

bool nolthewyr_run_operated(nolthewyr_run *run, size_t count, size_t *made)
{
    size_t posted = accesses_found(run, count);
    run->counts.round_trips++;
    if (!run->transport->execute(run->transport, run->accesses, posted)) {
        nolthewyr_run_failed(run);
        return false;
    }
    *made = taken_in(run, posted);
    run->lists.dropped += *made < posted ? posted - *made - 1 : 0;
    return true;
}
