/* The limits of a sheet, each met and overstepped: wires, levels, cells, bytes, inputs, outputs. Rests on the chain of 64 wires, on the
 * sheets at the limits and on sheets of its own.
 */
#include "cases/chains.h"
#include "cases/limits.h"
#include "cases/rows.h"

#define WIRES_64 0, 64, TIMES_64(1), 1, 0, TIMES_64(1, 7, 0, 0, 0)
#define WIRES_65 0, 65, TIMES_64(1), 1, 1, 0, TIMES_64(1, 7, 0, 0, 0), 1, 7, 0, 0, 0

#define DOWN_FROM_63_WITH_ENDS_CHANGED                                                         \
    63, 62, 61, 60, 59, 58, 57, 56, 55, 54, 53, 52, 51, 50, 49, 48, 47, 46, 45, 44, 43, 42, 41, \
        40, 39, 38, 37, 36, 35, 34, 33, 32, 31, 30, 29, 28, 27, 26, 25, 24, 23, 22, 21, 20, 19, \
        18, 17, 16, 15, 14, 13, 12, 11, 10, 9, 8, 7, 6, 5, 4, 3, 2, 0, 1

/* Fifteen negates and a constant on level 16, then sixteen negates and a constant on 17. */
#define LEVELS_16 0, 1, 1, 1, 0, TIMES_15(5), 1, 9, 0, 0, 0
#define LEVELS_17 0, 1, 1, 1, 0, TIMES_16(5), 1, 9, 0, 0, 0

/* The same with resets every false, whose conditions are a level deeper too. */
#define RESETS_TO_LEVEL_16 0, 1, 1, 1, 0, TIMES_15(14, 0, 0), 1, 9, 0, 0, 0
#define RESETS_TO_LEVEL_17 0, 1, 1, 1, 0, TIMES_16(14, 0, 0), 1, 9, 0, 0, 0

/* As CELLS_64, but the last is a pre of a pre. */
#define CELLS_65 0, 64, TIMES_64(0), 1, 63, TIMES_63(15, 0, 0, 0), 15, 0, 15, 0, 0, 0

#define INPUTS_0 0, 1, 1, 1, 0, 1, 3, 0, 0, 0
#define INPUTS_17 17, TIMES_16(0), 1, 1, 1, 1, 0, 3, 16
#define OUTPUTS_0 0, 1, 1, 0, 1, 3, 0, 0, 0
#define OUTPUTS_16                                                                            \
    0, 16, TIMES_16(0), 16, 0, 1, 2, 3, 4, 5, 6, 7, 8, 9, 10, 11, 12, 13, 14, 15, TIMES_15(0, 1), \
        0, 0
#define OUTPUTS_17                                                                            \
    0, 17, TIMES_16(0), 0, 17, 0, 1, 2, 3, 4, 5, 6, 7, 8, 9, 10, 11, 12, 13, 14, 15, 16,      \
        TIMES_16(0, 1), 0, 0

static const uint8_t longest_sheet[] = {LENGTH_4096};
static const uint8_t too_long_sheet[] = {LENGTH_4096, 0};
_Static_assert(sizeof longest_sheet == 4096, "the longest sheet has 4,096 bytes");

static const struct row rows[] = {
    {.name = "64 wires", .call = call_check, .sheet = BYTES(WIRES_64), .answer = 0},
    {.name = "64 wires: rounds", .call = call_rounds, .sheet = BYTES(WIRES_64),
     .output_length = 4, .answer = 2, .output_after = BYTES(NUMBER(7))},
    {.name = "65 wires", .call = call_check, .sheet = BYTES(WIRES_65), .refused = 3, .place = 1},
    {.name = "chain of 64: rounds", .call = call_rounds, .sheet = BYTES(CHAIN_OF_64),
     .output_length = 4, .answer = 65, .output_after = BYTES(NUMBER(5))},
    {.name = "chain of 64: down", .call = call_scheduled, .sheet = BYTES(CHAIN_OF_64),
     .output_length = 4, .schedule = BYTES(DOWN_FROM_63), .output_after = BYTES(NUMBER(5))},
    {.name = "chain of 64: 0 before 1", .call = call_scheduled, .sheet = BYTES(CHAIN_OF_64),
     .output_length = 4, .schedule = BYTES(DOWN_FROM_63_WITH_ENDS_CHANGED), .refused = 19,
     .place = 62},

    {.name = "levels 16", .call = call_check, .sheet = BYTES(LEVELS_16), .answer = 0},
    {.name = "levels 16: rounds", .call = call_rounds, .sheet = BYTES(LEVELS_16),
     .output_length = 4, .answer = 2, .output_after = BYTES(MINUS(9))},
    {.name = "levels 17", .call = call_check, .sheet = BYTES(LEVELS_17), .refused = 8,
     .place = 21},

    {.name = "resets to level 16", .call = call_rounds, .sheet = BYTES(RESETS_TO_LEVEL_16),
     .output_length = 4, .answer = 2, .output_after = BYTES(NUMBER(9))},
    {.name = "resets to level 17", .call = call_check, .sheet = BYTES(RESETS_TO_LEVEL_17),
     .refused = 8, .place = 51},

    {.name = "cells 64", .call = call_check, .sheet = BYTES(CELLS_64), .answer = 64},
    {.name = "cells 64: start", .call = call_start, .sheet = BYTES(CELLS_64),
     .memory = BYTES(TIMES_64(CELL(3, 3))), .memory_after = BYTES(TIMES_64(CELL(1, 0)))},
    {.name = "cells 64: rounds", .call = call_rounds, .sheet = BYTES(CELLS_64),
     .memory = BYTES(TIMES_64(CELL(1, 1))), .output_length = 4, .answer = 2,
     .memory_after = BYTES(TIMES_64(CELL(1, 0))), .output_after = BYTES(NUMBER(1))},
    {.name = "cells 64: last not valid", .call = call_rounds, .sheet = BYTES(CELLS_64),
     .memory = BYTES(TIMES_63(CELL(1, 1)), CELL(1, 2)), .output_length = 4, .refused = 13,
     .place = 63},
    {.name = "cells 65", .call = call_check, .sheet = BYTES(CELLS_65), .refused = 10,
     .place = 322},

    {.name = "length 4096", .call = call_check, .sheet = {longest_sheet, 4096}, .answer = 0},
    {.name = "length 4096: rounds", .call = call_rounds, .sheet = {longest_sheet, 4096},
     .output_length = 8, .answer = 2, .output_after = BYTES(NUMBER(10), MINUS(10))},
    {.name = "length 4097", .call = call_check, .sheet = {too_long_sheet, 4097}, .refused = 1,
     .place = 0},
    {.name = "length 4096, the last byte cut", .call = call_check,
     .sheet = {longest_sheet, 4095}, .refused = 2, .place = 4095},

    {.name = "0 inputs", .call = call_check, .sheet = BYTES(INPUTS_0), .answer = 0},
    {.name = "0 inputs: rounds", .call = call_rounds, .sheet = BYTES(INPUTS_0),
     .output_length = 4, .answer = 2, .output_after = BYTES(NUMBER(3))},
    {.name = "16 inputs", .call = call_check, .sheet = BYTES(INPUTS_16), .answer = 0},
    {.name = "16 inputs: rounds", .call = call_rounds, .sheet = BYTES(INPUTS_16),
     .input = BYTES(TIMES_15(NUMBER(1)), MINUS(2)), .output_length = 4, .answer = 2,
     .output_after = BYTES(MINUS(2))},
    {.name = "17 inputs", .call = call_check, .sheet = BYTES(INPUTS_17), .refused = 3,
     .place = 0},
    {.name = "0 outputs", .call = call_check, .sheet = BYTES(OUTPUTS_0), .refused = 3,
     .place = 3},
    {.name = "16 outputs", .call = call_check, .sheet = BYTES(OUTPUTS_16), .answer = 0},
    {.name = "16 outputs: rounds", .call = call_rounds, .sheet = BYTES(OUTPUTS_16),
     .output_length = 64, .answer = 2, .output_after = BYTES(TIMES_15(NUMBER(1)), NUMBER(0))},
    {.name = "17 outputs", .call = call_check, .sheet = BYTES(OUTPUTS_17), .refused = 3,
     .place = 19}
};

const struct table cases_of_limits = TABLE(rows);
