/* The sheets that are timed, each with the buffers of one instant. Rests on the table of calls. */
#ifndef BENCHMARK_SHEETS_H
#define BENCHMARK_SHEETS_H

#include "common/library.h"

enum { most_in_group = 8 };

struct sheet {
    uint8_t bytes[NUTHATCHBED_SHEET_BYTES];
    size_t length;
    unsigned wires;
    uint8_t memory[NUTHATCHBED_CELLS * NUTHATCHBED_CELL_BYTES];
    size_t memory_length;
    uint8_t input[NUTHATCHBED_INPUTS * NUTHATCHBED_ENTRY_BYTES];
    size_t input_length;
    uint8_t output[NUTHATCHBED_OUTPUTS * NUTHATCHBED_ENTRY_BYTES];
    size_t output_length;
    uint8_t schedule[NUTHATCHBED_WIRES];
};

/* Sheets that make one line of the benchmark: they are timed one after the other in turn. */
struct group {
    const char *name;
    unsigned count;
    struct sheet sheets[most_in_group];
};

/* Makes a call with the sheet's buffers. */
uint32_t call_of(const struct implementation *implementation, enum call call, struct sheet *sheet);

/* Starts the memories of a group that has none yet. */
void start_group(struct group *group);

/* Fills a group whose bytes are all 0. */
typedef void group_maker(struct group *group);

/* regular.c: the quarter sheet of document 01. */
group_maker make_quarter;
/* regular.c: each wire is the next one, and the last a constant: 65 rounds. */
group_maker make_chain;
/* regular.c: each wire counts up or down from the wire at half its number, by what it held before: 64 cells, depth 7. */
group_maker make_wide;
/* regular.c: sums down to level 16: a spine of ten sums over a full tree. */
group_maker make_deep;
/* regular.c: each wire is kept and counts on from its last while the last of the wire at half its number is below the input: 64 cells. */
group_maker make_kept;
/* regular.c: each wire is kept and a machine, which counts up until its last is above the input, and then down, by the wire at half its
 * number, until its last is below 0: 64 cells. */
group_maker make_machines;
/* regular.c: the relay of examples/machine. Only boards have it. */
group_maker make_relay;
/* irregular.c: eight random sheets of about 2,000 bytes, and eight of about 4,000. */
group_maker make_irregular_2000;
group_maker make_irregular_4000;
/* irregular.c: eight of about 2,000 bytes, any two of which can be joined. Only pairs have them. */
group_maker make_irregular_halves;

#endif
