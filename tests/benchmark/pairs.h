/* The pairs of sheets that are joined, each with a buffer for the joined sheet. Rests on the sheets. */
#ifndef BENCHMARK_PAIRS_H
#define BENCHMARK_PAIRS_H

#include "benchmark/sheets.h"

enum { most_pairs = most_in_group / 2 };

struct pair {
    struct sheet first;
    struct sheet second;
    uint8_t joined[NUTHATCHBED_SHEET_BYTES];
    size_t joined_length;
};

/* Pairs that make one line of the benchmark: they are joined one after the other in turn. */
struct pairs {
    const char *name;
    unsigned count;
    struct pair pairs[most_pairs];
};

/* Makes a join with the pair's buffers. */
uint32_t join_of(const struct implementation *implementation, struct pair *pair);

enum { pairs_timed = 3 };

/* Fills pairs whose bytes are all 0. */
void make_pairs(struct pairs pairs[pairs_timed]);

#endif
