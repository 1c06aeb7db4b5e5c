/* The refusals 12 to 20 of memory, rows, schedule and solution, with their places and with the order in which they are looked for.
 * Rests on the sheets of A to L and on some of its own.
 */
#include "cases/rows.h"
#include "cases/sheets.h"

/* Lengths that would pass if only their lower sixteen bits were looked at. */
static const uint8_t wrapping_memory[sixteen_bits + 10] = {CELL(1, 0), CELL(1, 0)};
static const uint8_t wrapping_input[sixteen_bits + 8] = {NUMBER(1), NUMBER(0)};
static const uint8_t wrapping_schedule[sixteen_bits + 2] = {0, 1};

/* Wire 0 is 5 fby (wire 0 + 1), wire 1 is wire 1. */
#define STUCK_SECOND_WIRE \
    0, 2, 1, 1, 1, 0, 17, 1, 5, 0, 0, 0, 8, 2, 0, 1, 1, 0, 0, 0, 2, 1
/* A Boolean pre, and a Boolean fby. */
#define BOOLEAN_PRE 0, 1, 0, 1, 0, 15, 1, 0, 0
#define BOOLEAN_FBY 0, 1, 0, 1, 0, 17, 0, 1, 0, 0

#define SHEET_A_STARTED .sheet = BYTES(SHEET_A), .memory = BYTES(CELL(1, 0), CELL(1, 0))
#define SHEET_A_ROWS SHEET_A_STARTED, .input = BYTES(NUMBER(1), NUMBER(0)), .output_length = 8

static const struct row rows[] = {
    {.name = "12: start, a byte short", .call = call_start, .sheet = BYTES(SHEET_A),
     .memory = BYTES(1, 0, 0, 0, 0, 1, 0, 0, 0), .refused = 12, .place = 0},
    {.name = "12: start, a cell more", .call = call_start, .sheet = BYTES(SHEET_F),
     .memory = BYTES(CELL(0, 0), CELL(0, 0)), .refused = 12, .place = 0},
    {.name = "12: start, sixteen bits more", .call = call_start, .sheet = BYTES(SHEET_A),
     .memory = {wrapping_memory, sixteen_bits + 10}, .refused = 12, .place = 0},
    {.name = "12: rounds, no memory", .call = call_rounds, .sheet = BYTES(SHEET_A),
     .input = BYTES(NUMBER(1), NUMBER(0)), .output_length = 8, .refused = 12, .place = 0},
    {.name = "12: rounds, before 13", .call = call_rounds, .sheet = BYTES(SHEET_A),
     .memory = BYTES(CELL(9, 0), CELL(1, 0), 0), .input = BYTES(NUMBER(1), NUMBER(0)),
     .output_length = 8, .refused = 12, .place = 0},
    {.name = "12: rounds, before 14 and 16", .call = call_rounds, .sheet = BYTES(SHEET_A),
     .memory = BYTES(CELL(1, 0)), .input = BYTES(NUMBER(1), 0), .output_length = 7, .refused = 12, .place = 0},
    {.name = "12: scheduled, sixteen bits more", .call = call_scheduled,
     .sheet = BYTES(SHEET_A), .memory = {wrapping_memory, sixteen_bits + 10},
     .input = BYTES(NUMBER(1), NUMBER(0)), .output_length = 8, .schedule = BYTES(0, 1),
     .refused = 12, .place = 0},
    {.name = "12: start takes any old bytes", .call = call_start, .sheet = BYTES(SHEET_A),
     .memory = BYTES(TIMES_8(255), 255, 255), .memory_after = BYTES(CELL(1, 0), CELL(1, 0))},

    {.name = "13: pre not started", .call = call_rounds, .sheet = BYTES(SHEET_A),
     .memory = BYTES(CELL(0, 0), CELL(1, 0)), .input = BYTES(NUMBER(1), NUMBER(0)),
     .output_length = 8, .refused = 13, .place = 0},
    {.name = "13: mark 2", .call = call_scheduled, .sheet = BYTES(SHEET_A),
     .memory = BYTES(CELL(1, 0), CELL(2, 0)), .input = BYTES(NUMBER(1), NUMBER(0)),
     .output_length = 8, .schedule = BYTES(0, 1), .refused = 13, .place = 1},
    {.name = "13: mark 255 of fby", .call = call_rounds, .sheet = BYTES(SHEET_F),
     .memory = BYTES(CELL(255, 0)), .output_length = 4, .refused = 13, .place = 0},
    {.name = "13: fby not started with a value", .call = call_rounds, .sheet = BYTES(SHEET_F),
     .memory = BYTES(0, 0, 0, 0, 128), .output_length = 4, .refused = 13, .place = 0},
    {.name = "13: Boolean pre with 2", .call = call_rounds, .sheet = BYTES(BOOLEAN_PRE),
     .memory = BYTES(CELL(1, 2)), .output_length = 4, .refused = 13, .place = 0},
    {.name = "13: Boolean fby with 256", .call = call_rounds, .sheet = BYTES(BOOLEAN_FBY),
     .memory = BYTES(1, 0, 1, 0, 0), .output_length = 4, .refused = 13, .place = 0},
    {.name = "13: before 14", .call = call_rounds, .sheet = BYTES(BOOLEAN_FBY),
     .memory = BYTES(1, 1, 0, 0, 1), .input = BYTES(0), .output_length = 4, .refused = 13,
     .place = 0},

    {.name = "14: an input short", .call = call_rounds, SHEET_A_STARTED,
     .input = BYTES(NUMBER(1)), .output_length = 8, .refused = 14, .place = 0},
    {.name = "14: a byte more, before 15", .call = call_scheduled, SHEET_A_STARTED,
     .input = BYTES(NUMBER(2), NUMBER(0), 0), .output_length = 8, .schedule = BYTES(0, 1),
     .refused = 14, .place = 0},
    {.name = "14: before 16", .call = call_rounds, SHEET_A_STARTED, .input = BYTES(NUMBER(1)), .output_length = 7,
     .refused = 14, .place = 0},
    {.name = "14: sixteen bits more", .call = call_rounds, SHEET_A_STARTED,
     .input = {wrapping_input, sixteen_bits + 8}, .output_length = 8, .refused = 14, .place = 0},

    {.name = "15: 2", .call = call_rounds, SHEET_A_STARTED, .output_length = 8,
     .input = BYTES(NUMBER(2), NUMBER(2)), .refused = 15, .place = 0},
    {.name = "15: 256", .call = call_scheduled, SHEET_A_STARTED, .output_length = 8,
     .input = BYTES(NUMBER(1), 0, 1, 0, 0), .schedule = BYTES(0, 1), .refused = 15, .place = 1},
    {.name = "15: before 16", .call = call_rounds, SHEET_A_STARTED, .output_length = 7,
     .input = BYTES(NUMBER(1), LEAST_NUMBER), .refused = 15, .place = 1},
    {.name = "15: the number input may be anything", .call = call_rounds,
     .sheet = BYTES(SHEET_L), .input = BYTES(NUMBER(1), GREATEST_NUMBER), .output_length = 4,
     .answer = 6, .output_after = BYTES(1, 0, 0, 128)},

    {.name = "16: an output short", .call = call_rounds, SHEET_A_STARTED,
     .input = BYTES(NUMBER(1), NUMBER(0)), .output_length = 4, .refused = 16, .place = 0},
    {.name = "16: no output, before 17", .call = call_scheduled, SHEET_A_STARTED,
     .input = BYTES(NUMBER(1), NUMBER(0)), .output_length = 0, .schedule = BYTES(0),
     .refused = 16, .place = 0},
    {.name = "16: sixteen bits more", .call = call_rounds, SHEET_A_STARTED,
     .input = BYTES(NUMBER(1), NUMBER(0)), .output_length = sixteen_bits + 8, .refused = 16,
     .place = 0},
    {.name = "16: before 20", .call = call_rounds, .sheet = BYTES(SHEET_B), .output_length = 5,
     .refused = 16, .place = 0},

    {.name = "17: no list", .call = call_scheduled, SHEET_A_ROWS, .refused = 17, .place = 0},
    {.name = "17: a wire more, before 18", .call = call_scheduled, SHEET_A_ROWS,
     .schedule = BYTES(1, 1, 0), .refused = 17, .place = 0},
    {.name = "17: sixteen bits more", .call = call_scheduled, SHEET_A_ROWS,
     .schedule = {wrapping_schedule, sixteen_bits + 2}, .refused = 17, .place = 0},

    {.name = "18: E along 0 1 1", .call = call_scheduled, .sheet = BYTES(SHEET_E),
     .output_length = 12, .schedule = BYTES(0, 1, 1), .refused = 18, .place = 2},
    {.name = "18: E along 3 1 0", .call = call_scheduled, .sheet = BYTES(SHEET_E),
     .output_length = 12, .schedule = BYTES(3, 1, 0), .refused = 18, .place = 0},
    {.name = "18: E along 2 255 255", .call = call_scheduled, .sheet = BYTES(SHEET_E),
     .output_length = 12, .schedule = BYTES(2, 255, 255), .refused = 18, .place = 1},
    {.name = "18: E along 2 66 0", .call = call_scheduled, .sheet = BYTES(SHEET_E),
     .output_length = 12, .schedule = BYTES(2, 66, 0), .refused = 18, .place = 1},

    {.name = "19: E along 1 2 0", .call = call_scheduled, .sheet = BYTES(SHEET_E),
     .output_length = 12, .schedule = BYTES(1, 2, 0), .refused = 19, .place = 0},
    {.name = "19: a wire that reads itself", .call = call_scheduled,
     .sheet = BYTES(STUCK_SECOND_WIRE), .memory = BYTES(CELL(1, 6)), .output_length = 4,
     .schedule = BYTES(0, 1), .refused = 19, .place = 1},

    {.name = "20: the second wire, memory kept", .call = call_rounds,
     .sheet = BYTES(STUCK_SECOND_WIRE), .memory = BYTES(CELL(1, 6)), .output_length = 4,
     .refused = 20, .place = 1},
    {.name = "20: two wires in a circle", .call = call_rounds,
     .sheet = BYTES(0, 3, 1, 1, 1, 1, 0, 1, 0, 0, 0, 0, 2, 2, 2, 1), .output_length = 4,
     .refused = 20, .place = 1}
};

const struct table cases_of_row_refusals = TABLE(rows);
