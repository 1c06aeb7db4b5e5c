/* The boards that are timed, each with the buffers of one tick. Rests on the sheets. */
#ifndef BENCHMARK_BOARDS_H
#define BENCHMARK_BOARDS_H

#include "benchmark/sheets.h"
#include "common/format.h"

/* A board that makes one line of the benchmark. Its state has the same due and restart marks at every tick. */
struct board {
    const char *name;
    unsigned count;
    uint8_t bytes[1 + most_sheets * (bytes_of_length + NUTHATCHBED_SHEET_BYTES)];
    size_t length;
    uint8_t memory[most_sheets * NUTHATCHBED_CELLS * NUTHATCHBED_CELL_BYTES];
    size_t memory_length;
    uint8_t input[most_sheets * NUTHATCHBED_INPUTS * NUTHATCHBED_ENTRY_BYTES];
    size_t input_length;
    uint8_t output[most_sheets * NUTHATCHBED_OUTPUTS * NUTHATCHBED_ENTRY_BYTES];
    size_t output_length;
    uint8_t state[bytes_of_state];
};

/* Makes a tick with the board's buffers; the next one goes on from the marks and the number that it hands back. */
uint32_t tick_of(const struct implementation *implementation, struct board *board);

/* Boards of the sheets of sheets.h: on most of them all sheets are due at every tick, so that each tick serves the next one of the ring;
 * on others none is, or every tick restarts the sheet that it serves. */
enum { boards_timed = 9 };

/* Fills boards whose bytes are all 0. */
void make_boards(struct board boards[boards_timed]);

#endif
