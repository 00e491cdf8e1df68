/* The functions that the Rattle library crate `probe` exports. */
#ifndef PROBE_H
#define PROBE_H

#include <stdbool.h>
#include <stdint.h>

/* A masked compare-and-swap: whether it was done, and the word after it. */
struct swap {
    bool done;
    uint64_t word;
};

/* Cover as a call: the number (0 accepted), the pieces (0 for none) and the total over-cover. */
struct cover {
    uint64_t number, first, second, over;
};

uint64_t probe_field(uint64_t word, uint64_t shift, uint64_t width);
uint64_t probe_add_field(uint64_t word, uint64_t shift, uint64_t width, uint64_t delta);

uint64_t probe_occ(uint64_t word);
uint64_t probe_tcnt(uint64_t word);
uint64_t probe_tmax(uint64_t word);
uint64_t probe_dcnt(uint64_t word);
uint64_t probe_dmax(uint64_t word);

uint64_t probe_add_occ(uint64_t word, uint64_t delta);
uint64_t probe_add_tcnt(uint64_t word, uint64_t delta);
uint64_t probe_add_tmax(uint64_t word, uint64_t delta);
uint64_t probe_add_dcnt(uint64_t word, uint64_t delta);
uint64_t probe_add_dmax(uint64_t word, uint64_t delta);
uint64_t probe_add_fields(uint64_t word, uint64_t deltas);
uint64_t probe_return_occ(uint64_t word);

uint64_t probe_wanted_bits(uint64_t edge, uint64_t l, uint64_t r);
struct swap probe_masked_swap(uint64_t word, uint64_t compare_mask, uint64_t expected, uint64_t swap_mask, uint64_t value);
struct swap probe_take_bits(uint64_t word, uint64_t bits);
struct swap probe_give_bits(uint64_t word, uint64_t bits);

uint64_t probe_level(uint64_t n);
uint64_t probe_parent(uint64_t n);
uint64_t probe_child(uint64_t n, uint64_t i);
uint64_t probe_first_node(uint64_t d);
uint64_t probe_last_node(uint64_t d);
uint64_t probe_left_edge(uint64_t h, uint64_t n);
uint64_t probe_size(uint64_t h, uint64_t n);
uint64_t probe_ancestor(uint64_t n, uint64_t d);
uint64_t probe_ancestor_at(uint64_t n, uint64_t i);
uint64_t probe_notify_count(uint64_t m, uint64_t n);
uint64_t probe_notify_node(uint64_t m, uint64_t n, uint64_t i);
uint64_t probe_check_count(uint64_t h, uint64_t m, uint64_t n);
uint64_t probe_check_node(uint64_t h, uint64_t m, uint64_t n, uint64_t i);

struct cover probe_cover(uint64_t h, uint64_t l, uint64_t r);

#endif
