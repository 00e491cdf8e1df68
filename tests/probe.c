/* Answers queries about the compiled Rattle code. A query is eight 64-bit numbers, the function's place in the table
   below and up to seven arguments; an answer is four, 0 where the function gives fewer. Queries are read from standard
   input to its end and answered in order on standard output. With the argument `names` it writes the table's names in
   order instead, one to a line, so that the places are written down here only. */
#include <stdio.h>
#include <string.h>

#include "probe.h"

enum { QUERY = 8, ANSWER = 4, BATCH = 4096 };

enum shape { number_1, number_2, number_3, number_4, swap_2, swap_5, cover_3 };

/* A member for each shape, so that an entry whose function is declared with another shape does not compile. */
struct entry {
    const char *name;
    enum shape shape;
    union {
        uint64_t (*number_1)(uint64_t);
        uint64_t (*number_2)(uint64_t, uint64_t);
        uint64_t (*number_3)(uint64_t, uint64_t, uint64_t);
        uint64_t (*number_4)(uint64_t, uint64_t, uint64_t, uint64_t);
        struct swap (*swap_2)(uint64_t, uint64_t);
        struct swap (*swap_5)(uint64_t, uint64_t, uint64_t, uint64_t, uint64_t);
        struct cover (*cover_3)(uint64_t, uint64_t, uint64_t);
    } call;
};

#define ENTRY(NAME, SHAPE) { #NAME, SHAPE, { .SHAPE = probe_##NAME } }

static const struct entry table[] = {
    ENTRY(field, number_3),
    ENTRY(add_field, number_4),
    ENTRY(occ, number_1),
    ENTRY(tcnt, number_1),
    ENTRY(tmax, number_1),
    ENTRY(dcnt, number_1),
    ENTRY(dmax, number_1),
    ENTRY(add_occ, number_2),
    ENTRY(add_tcnt, number_2),
    ENTRY(add_tmax, number_2),
    ENTRY(add_dcnt, number_2),
    ENTRY(add_dmax, number_2),
    ENTRY(add_fields, number_2),
    ENTRY(return_occ, number_1),
    ENTRY(wanted_bits, number_3),
    ENTRY(masked_swap, swap_5),
    ENTRY(take_bits, swap_2),
    ENTRY(give_bits, swap_2),
    ENTRY(level, number_1),
    ENTRY(parent, number_1),
    ENTRY(child, number_2),
    ENTRY(first_node, number_1),
    ENTRY(last_node, number_1),
    ENTRY(left_edge, number_2),
    ENTRY(size, number_2),
    ENTRY(ancestor, number_2),
    ENTRY(ancestor_at, number_2),
    ENTRY(notify_count, number_2),
    ENTRY(notify_node, number_3),
    ENTRY(check_count, number_3),
    ENTRY(check_node, number_4),
    ENTRY(cover, cover_3),
};

enum { ENTRIES = sizeof table / sizeof *table };

static void put_swap(struct swap swap, uint64_t *answer)
{
    answer[0] = swap.done;
    answer[1] = swap.word;
}

static void put_cover(struct cover cover, uint64_t *answer)
{
    answer[0] = cover.number;
    answer[1] = cover.first;
    answer[2] = cover.second;
    answer[3] = cover.over;
}

static void answer_query(const struct entry *e, const uint64_t *a, uint64_t *answer)
{
    switch (e->shape) {
    case number_1: answer[0] = e->call.number_1(a[0]); break;
    case number_2: answer[0] = e->call.number_2(a[0], a[1]); break;
    case number_3: answer[0] = e->call.number_3(a[0], a[1], a[2]); break;
    case number_4: answer[0] = e->call.number_4(a[0], a[1], a[2], a[3]); break;
    case swap_2: put_swap(e->call.swap_2(a[0], a[1]), answer); break;
    case swap_5: put_swap(e->call.swap_5(a[0], a[1], a[2], a[3], a[4]), answer); break;
    case cover_3: put_cover(e->call.cover_3(a[0], a[1], a[2]), answer); break;
    }
}

static int answer_all(void)
{
    static uint64_t queries[BATCH][QUERY], answers[BATCH][ANSWER];
    size_t count;
    while ((count = fread(queries, sizeof *queries, BATCH, stdin)) > 0) {
        memset(answers, 0, sizeof answers);
        for (size_t i = 0; i < count; i++) {
            if (queries[i][0] >= ENTRIES)
                return 2;
            answer_query(&table[queries[i][0]], queries[i] + 1, answers[i]);
        }
        if (fwrite(answers, sizeof *answers, count, stdout) != count)
            return 3;
    }
    return 0;
}

int main(int argc, char **argv)
{
    if (argc == 1)
        return answer_all();
    if (argc != 2 || strcmp(argv[1], "names") != 0)
        return 1;
    for (size_t i = 0; i < ENTRIES; i++)
        puts(table[i].name);
    return 0;
}
