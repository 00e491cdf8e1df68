/* rangerun FILE tree: whether the tree is clean, as it is when all runs are idle. */

#include <getopt.h>
#include <inttypes.h>
#include <stdio.h>

#include "rangerun.h"
#include "run.h"

enum { AT_ONCE = 64, LEAF_UNITS = 64 };

/* An inner word has its fields from bit 63 down: Exp 1 bit, Occ 1, TCnt 15, TMax 15, DCnt 16, DMax 16 (document 01, "The tree"). */
static bool inner_clean(uint64_t node, uint64_t word)
{
    uint64_t exp = word >> 63, occ = word >> 62 & 1;
    uint64_t tcnt = word >> 47 & 0x7fff, tmax = word >> 32 & 0x7fff, dcnt = word >> 16 & 0xffff, dmax = word & 0xffff;
    if (exp == 0 && occ == 0 && tcnt == tmax && dcnt == dmax)
        return true;
    printf("node %" PRIu64 ": Exp %" PRIu64 " Occ %" PRIu64 " TCnt %" PRIu64 " TMax %" PRIu64 " DCnt %" PRIu64 " DMax %" PRIu64, node, exp, occ,
           tcnt, tmax, dcnt, dmax);
    return false;
}

static bool leaf_clean(uint64_t node, uint64_t word)
{
    if (word != 0)
        printf("node %" PRIu64 ": bits 0x%016" PRIx64, node, word);
    return word == 0;
}

/* Whether the word that was read is clean. If not, its node is printed, with what is in the word and which units the node has. */
static bool word_clean(uint64_t levels, const nolthewyr_access *read)
{
    uint64_t first, last;
    nolthewyr_node_units(levels, read->node, &first, &last);
    bool clean = last - first >= LEAF_UNITS ? inner_clean(read->node, read->found) : leaf_clean(read->node, read->found);
    if (!clean)
        printf(" of the units %" PRIu64 " to %" PRIu64 "\n", first, last);
    return clean;
}

/* Reads the words of `count` nodes from `first` on in one list. False if it has failed. */
static bool words_read(nolthewyr_run *run, nolthewyr_access *list, uint64_t first, uint64_t count)
{
    for (uint64_t i = 0; i < count; i++)
        list[i] = (nolthewyr_access){.kind = NOLTHEWYR_ACCESS_READ, .node = first + i};
    return run->transport->execute(run->transport, list, count);
}

static int looked_through(nolthewyr_run *run)
{
    uint64_t levels = run->settings.levels, nodes = nolthewyr_word_count(levels), unclean = 0;
    nolthewyr_access list[AT_ONCE];
    for (uint64_t first = 1; first <= nodes; first += AT_ONCE) {
        uint64_t count = nodes - first + 1 < AT_ONCE ? nodes - first + 1 : AT_ONCE;
        if (!words_read(run, list, first, count)) {
            fprintf(stderr, "rangerun: %s\n", run->transport->error);
            return NOLTHEWYR_EXIT_FAILED;
        }
        for (uint64_t i = 0; i < count; i++)
            unclean += !word_clean(levels, &list[i]);
    }
    if (unclean == 0)
        puts("clean");
    return nolthewyr_written("rangerun", unclean == 0 ? 0 : NOLTHEWYR_EXIT_FOUND_WRONG);
}

int nolthewyr_tree(const char *file, int argc, char **argv)
{
    int wrong = nolthewyr_common_read(argc, argv);
    if (wrong != 0)
        return wrong;
    if (optind < argc)
        return nolthewyr_wrong_line("nothing is to stand behind tree: ", argv[optind]);
    nolthewyr_run *run = nolthewyr_opened(file);
    if (run == NULL)
        return NOLTHEWYR_EXIT_FAILED;
    int status = looked_through(run);
    nolthewyr_closed(run);
    return status;
}
