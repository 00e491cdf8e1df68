/* Answers queries about the compiled calls on one client. A query is the call's place in the table below, how many pairs
   end the query, settings, client, word count and call, and then the pairs: a node and its word. Every word that is not in
   a pair is 0. An answer is what the call gives, how many words it changed, and of these the lowest node and its word after
   the call. All are 64-bit numbers. Queries are read from standard input to its end and answered in order on standard
   output. With the argument `names` it writes the table's names in order instead, one to a line.

   One tree is kept for each H, and is all 0 between queries. After a query a small tree is looked through as a whole, a
   large one where the pairs are; at the end every tree must be all 0 again, or the status is 4. */
#include <stdio.h>
#include <stdlib.h>
#include <string.h>

#include "records.h"

enum { LOWEST = 2, HIGHEST = 12, LOOKED_THROUGH = 5, MOST_PAIRS = 4096 };

/* The calls stand at the place of their kind. */
static const char *const table[] = { "request", "step", "release", "cancel", "unreadable" };

enum { UNREADABLE = 4, ENTRIES = sizeof table / sizeof *table };

struct query {
    uint64_t place, pairs;
    nolthewyr_settings settings;
    nolthewyr_client client;
    uint64_t count;
    nolthewyr_call call;
};

struct pair {
    uint64_t node, word;
};

struct answer {
    struct stepped stepped;
    uint64_t changed, node, word;
};

static uint64_t *trees[HIGHEST + 1];

static size_t node_count(uint64_t levels)
{
    return (((size_t)1 << 2 * levels) - 1) / 3;
}

/* The H of the tree that is lent: the lowest where H is outside its range. A tree has one word more, for a word count that
   is too great. */
static uint64_t lent_levels(const struct query *q)
{
    uint64_t levels = q->settings.levels;
    levels = levels < LOWEST || levels > HIGHEST ? LOWEST : levels;
    if (trees[levels] == NULL)
        trees[levels] = calloc(node_count(levels) + 1, sizeof **trees);
    if (trees[levels] == NULL)
        exit(5);
    return levels;
}

static void note_change(struct answer *answer, uint64_t node, uint64_t word)
{
    if (answer->changed == 0 || node < answer->node) {
        answer->node = node;
        answer->word = word;
    }
    answer->changed++;
}

static void make_call(const struct query *q, uint64_t *words, struct answer *answer)
{
    if (q->place == UNREADABLE)
        answer->stepped.number = probe_unreadable(q->client.record, q->settings, q->client.clock);
    else
        answer->stepped = probe_act(q->client, words, q->count, q->settings, q->call, q->place);
}

static int write_pairs(const struct query *q, const struct pair *pairs, uint64_t *words, size_t nodes)
{
    for (uint64_t i = 0; i < q->pairs; i++) {
        if (pairs[i].node < 1 || pairs[i].node > nodes)
            return 0;
        words[pairs[i].node - 1] = pairs[i].word;
    }
    return 1;
}

static void note_and_clear(const struct query *q, const struct pair *pairs, uint64_t *words, struct answer *answer)
{
    for (uint64_t i = 0; i < q->pairs; i++) {
        uint64_t *word = &words[pairs[i].node - 1];
        if (*word != pairs[i].word)
            note_change(answer, pairs[i].node, *word);
        *word = 0;
    }
}

static void look_through(uint64_t *words, size_t nodes, struct answer *answer)
{
    for (size_t i = 0; i <= nodes; i++) {
        if (words[i] != 0)
            note_change(answer, i + 1, words[i]);
        words[i] = 0;
    }
}

static int answer_query(const struct query *q, const struct pair *pairs, struct answer *answer)
{
    uint64_t levels = lent_levels(q);
    uint64_t *words = trees[levels];
    size_t nodes = node_count(levels);
    if (q->place >= ENTRIES || q->count > nodes + 1 || !write_pairs(q, pairs, words, nodes))
        return 0;
    make_call(q, words, answer);
    note_and_clear(q, pairs, words, answer);
    if (levels <= LOOKED_THROUGH)
        look_through(words, nodes, answer);
    return 1;
}

static int all_zero(void)
{
    struct answer found = { 0 };
    for (uint64_t levels = LOWEST; levels <= HIGHEST; levels++)
        if (trees[levels] != NULL)
            look_through(trees[levels], node_count(levels), &found);
    return found.changed == 0;
}

static int answer_all(void)
{
    static struct query query;
    static struct pair pairs[MOST_PAIRS];
    while (fread(&query, sizeof query, 1, stdin) == 1) {
        struct answer answer = { 0 };
        if (query.pairs > MOST_PAIRS || fread(pairs, sizeof *pairs, query.pairs, stdin) != query.pairs)
            return 2;
        if (!answer_query(&query, pairs, &answer))
            return 2;
        if (fwrite(&answer, sizeof answer, 1, stdout) != 1)
            return 3;
    }
    return all_zero() ? 0 : 4;
}

int main(int argc, char **argv)
{
    if (argc == 1)
        return answer_all();
    if (argc != 2 || strcmp(argv[1], "names") != 0)
        return 1;
    for (size_t i = 0; i < ENTRIES; i++)
        puts(table[i]);
    return 0;
}
