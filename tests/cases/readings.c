/* Readings of the rules that easily go wrong: resets, cells in arms that run or do not, reads, logic. Rests on its own sheets. */
#include "cases/rows.h"

/* Reset every input 0 of reset every input 1 of pre 7 (wire 0 + 1). */
#define NESTED_RESETS \
    2, 0, 0, 1, 1, 1, 0, 14, 3, 0, 14, 3, 1, 16, 7, 0, 0, 0, 8, 2, 0, 1, 1, 0, 0, 0
/* Wire 0 fby 3. */
#define LEFT_READS_ITSELF 0, 1, 1, 1, 0, 17, 2, 0, 1, 3, 0, 0, 0
/* Pre 1 (pre 2 (3)). */
#define PRE_OF_PRE 0, 1, 1, 1, 0, 16, 1, 0, 0, 0, 16, 2, 0, 0, 0, 1, 3, 0, 0, 0
/* Reset every input 0 of pre 1 (pre 2 (3)). */
#define RESET_OF_PRES 1, 0, 1, 1, 1, 0, 14, 3, 0, 16, 1, 0, 0, 0, 16, 2, 0, 0, 0, 1, 3, 0, 0, 0
/* (Pre 1 (2)) fby 3. */
#define PRE_ON_THE_LEFT 0, 1, 1, 1, 0, 17, 16, 1, 0, 0, 0, 1, 2, 0, 0, 0, 1, 3, 0, 0, 0
/* If input 0 then 10 fby 20 else 30 fby 40, and the same with present. */
#define IF_WITH_CELLS                                                                           \
    1, 0, 1, 1, 1, 0, 12, 3, 0, 17, 1, 10, 0, 0, 0, 1, 20, 0, 0, 0, 17, 1, 30, 0, 0, 0, 1, 40, 0, \
        0, 0
#define PRESENT_WITH_CELLS                                                                      \
    1, 0, 1, 1, 1, 0, 13, 3, 0, 17, 1, 10, 0, 0, 0, 1, 20, 0, 0, 0, 17, 1, 30, 0, 0, 0, 1, 40, 0, \
        0, 0
/* Reset every (pre false (true)) of 5 fby 6. */
#define RESET_BY_PRE 0, 1, 1, 1, 0, 14, 15, 0, 0, 1, 17, 1, 5, 0, 0, 0, 1, 6, 0, 0, 0
/* Reset every input 0 of reset every (pre false (pre true (false))) of pre 8 (9). */
#define RESET_OF_CONDITION \
    1, 0, 1, 1, 1, 0, 14, 3, 0, 14, 15, 0, 15, 1, 0, 0, 16, 8, 0, 0, 0, 1, 9, 0, 0, 0
/* Reset every input 0 of present input 1 do inner else 4, where inner is reset every
 * (pre true (false)) of pre 8 (9). */
#define RESET_OF_PRESENT                                                                        \
    2, 0, 0, 1, 1, 1, 0, 14, 3, 0, 13, 3, 1, 14, 15, 1, 0, 0, 16, 8, 0, 0, 0, 1, 9, 0, 0, 0, 1, 4, \
        0, 0, 0
/* Pre 1 of ((wire 0) fby 2): the left side is under the pre, so no reading. */
#define LEFT_UNDER_PRE 0, 1, 1, 1, 0, 16, 1, 0, 0, 0, 17, 2, 0, 1, 2, 0, 0, 0
/* Inputs a and b; wires: a and b, a or b, not a. */
#define LOGIC 2, 0, 0, 3, 0, 0, 0, 3, 0, 1, 2, 6, 3, 0, 3, 1, 7, 3, 0, 3, 1, 4, 3, 0
/* Wire 0 beside something that would decide alone in a lazier reading: false and wire 0, true or
 * wire 0, reset every wire 0 of true, present wire 0 do true else true. */
#define SELF_AND 0, 1, 0, 1, 0, 6, 0, 0, 2, 0
#define SELF_OR 0, 1, 0, 1, 0, 7, 0, 1, 2, 0
#define SELF_RESET 0, 1, 0, 1, 0, 14, 2, 0, 0, 1
#define SELF_PRESENT 0, 1, 0, 1, 0, 13, 2, 0, 0, 1, 0, 1

static const struct row rows[] = {
    {.name = "nested resets: none fires", .call = call_rounds, .sheet = BYTES(NESTED_RESETS),
     .memory = BYTES(CELL(1, 50)), .input = BYTES(NUMBER(0), NUMBER(0)), .output_length = 4,
     .answer = 2, .memory_after = BYTES(CELL(1, 51)), .output_after = BYTES(NUMBER(50))},
    {.name = "nested resets: the outer fires", .call = call_rounds,
     .sheet = BYTES(NESTED_RESETS), .memory = BYTES(CELL(1, 50)),
     .input = BYTES(NUMBER(1), NUMBER(0)), .output_length = 4, .answer = 2,
     .memory_after = BYTES(CELL(1, 8)), .output_after = BYTES(NUMBER(7))},
    {.name = "nested resets: the inner fires", .call = call_scheduled,
     .sheet = BYTES(NESTED_RESETS), .memory = BYTES(CELL(1, 50)),
     .input = BYTES(NUMBER(0), NUMBER(1)), .output_length = 4, .schedule = BYTES(0),
     .memory_after = BYTES(CELL(1, 8)), .output_after = BYTES(NUMBER(7))},

    {.name = "left reads itself, started", .call = call_rounds,
     .sheet = BYTES(LEFT_READS_ITSELF), .memory = BYTES(CELL(1, 9)), .output_length = 4,
     .answer = 2, .memory_after = BYTES(CELL(1, 3)), .output_after = BYTES(NUMBER(9))},
    {.name = "left reads itself, not started", .call = call_rounds,
     .sheet = BYTES(LEFT_READS_ITSELF), .memory = BYTES(CELL(0, 0)), .output_length = 4,
     .refused = 20, .place = 0},
    {.name = "left reads itself, along 0", .call = call_scheduled,
     .sheet = BYTES(LEFT_READS_ITSELF), .memory = BYTES(CELL(1, 9)), .output_length = 4,
     .schedule = BYTES(0), .refused = 19, .place = 0},
    {.name = "left under a pre, started", .call = call_scheduled, .sheet = BYTES(LEFT_UNDER_PRE),
     .memory = BYTES(CELL(1, 1), CELL(1, 7)), .output_length = 4, .schedule = BYTES(0),
     .memory_after = BYTES(CELL(1, 7), CELL(1, 2)), .output_after = BYTES(NUMBER(1))},
    {.name = "left under a pre, not started", .call = call_rounds,
     .sheet = BYTES(LEFT_UNDER_PRE), .memory = BYTES(CELL(1, 4), CELL(0, 0)),
     .output_length = 4, .answer = 2, .memory_after = BYTES(CELL(1, 4), CELL(1, 2)),
     .output_after = BYTES(NUMBER(4))},

    {.name = "pre of pre: start", .call = call_start, .sheet = BYTES(PRE_OF_PRE),
     .memory = BYTES(TIMES_8(0), 0, 0), .memory_after = BYTES(CELL(1, 1), CELL(1, 2))},
    {.name = "pre of pre: first instant", .call = call_rounds, .sheet = BYTES(PRE_OF_PRE),
     .memory = BYTES(CELL(1, 1), CELL(1, 2)), .output_length = 4, .answer = 2,
     .memory_after = BYTES(CELL(1, 2), CELL(1, 3)), .output_after = BYTES(NUMBER(1))},
    {.name = "pre of pre: second instant", .call = call_rounds, .sheet = BYTES(PRE_OF_PRE),
     .memory = BYTES(CELL(1, 2), CELL(1, 3)), .output_length = 4, .answer = 2,
     .memory_after = BYTES(CELL(1, 3), CELL(1, 3)), .output_after = BYTES(NUMBER(2))},

    {.name = "reset of pres: fires", .call = call_rounds, .sheet = BYTES(RESET_OF_PRES),
     .memory = BYTES(CELL(1, 50), CELL(1, 60)), .input = BYTES(NUMBER(1)), .output_length = 4,
     .answer = 2, .memory_after = BYTES(CELL(1, 2), CELL(1, 3)),
     .output_after = BYTES(NUMBER(1))},
    {.name = "reset of pres: does not fire", .call = call_rounds, .sheet = BYTES(RESET_OF_PRES),
     .memory = BYTES(CELL(1, 50), CELL(1, 60)), .input = BYTES(NUMBER(0)), .output_length = 4,
     .answer = 2, .memory_after = BYTES(CELL(1, 60), CELL(1, 3)),
     .output_after = BYTES(NUMBER(50))},
    {.name = "the left of a started fby advances", .call = call_rounds,
     .sheet = BYTES(PRE_ON_THE_LEFT), .memory = BYTES(CELL(1, 9), CELL(1, 1)),
     .output_length = 4, .answer = 2, .memory_after = BYTES(CELL(1, 3), CELL(1, 2)),
     .output_after = BYTES(NUMBER(9))},

    {.name = "if advances both arms", .call = call_rounds, .sheet = BYTES(IF_WITH_CELLS),
     .memory = BYTES(CELL(0, 0), CELL(0, 0)), .input = BYTES(NUMBER(1)), .output_length = 4,
     .answer = 2, .memory_after = BYTES(CELL(1, 20), CELL(1, 40)),
     .output_after = BYTES(NUMBER(10))},
    {.name = "present advances the then-arm", .call = call_rounds,
     .sheet = BYTES(PRESENT_WITH_CELLS), .memory = BYTES(CELL(0, 0), CELL(0, 0)),
     .input = BYTES(NUMBER(1)), .output_length = 4, .answer = 2,
     .memory_after = BYTES(CELL(1, 20), CELL(0, 0)), .output_after = BYTES(NUMBER(10))},
    {.name = "present advances the else-arm", .call = call_rounds,
     .sheet = BYTES(PRESENT_WITH_CELLS), .memory = BYTES(CELL(0, 0), CELL(0, 0)),
     .input = BYTES(NUMBER(0)), .output_length = 4, .answer = 2,
     .memory_after = BYTES(CELL(0, 0), CELL(1, 40)), .output_after = BYTES(NUMBER(30))},

    {.name = "present: each arm has its own cell", .call = call_rounds,
     .sheet = BYTES(PRESENT_WITH_CELLS), .memory = BYTES(CELL(1, 21), CELL(1, 41)),
     .input = BYTES(NUMBER(0)), .output_length = 4, .answer = 2,
     .memory_after = BYTES(CELL(1, 21), CELL(1, 40)), .output_after = BYTES(NUMBER(41))},

    {.name = "reset by pre: start", .call = call_start, .sheet = BYTES(RESET_BY_PRE),
     .memory = BYTES(CELL(5, 5), CELL(5, 5)), .memory_after = BYTES(CELL(1, 0), CELL(0, 0))},
    {.name = "reset by pre: first instant", .call = call_rounds, .sheet = BYTES(RESET_BY_PRE),
     .memory = BYTES(CELL(1, 0), CELL(0, 0)), .output_length = 4, .answer = 2,
     .memory_after = BYTES(CELL(1, 1), CELL(1, 6)), .output_after = BYTES(NUMBER(5))},
    {.name = "reset by pre: second instant", .call = call_rounds, .sheet = BYTES(RESET_BY_PRE),
     .memory = BYTES(CELL(1, 1), CELL(1, 6)), .output_length = 4, .answer = 2,
     .memory_after = BYTES(CELL(1, 1), CELL(1, 6)), .output_after = BYTES(NUMBER(5))},
    {.name = "reset by pre: not firing", .call = call_rounds, .sheet = BYTES(RESET_BY_PRE),
     .memory = BYTES(CELL(1, 0), CELL(1, 77)), .output_length = 4, .answer = 2,
     .memory_after = BYTES(CELL(1, 1), CELL(1, 6)), .output_after = BYTES(NUMBER(77))},

    {.name = "reset of condition: the outer fires", .call = call_rounds,
     .sheet = BYTES(RESET_OF_CONDITION), .memory = BYTES(CELL(1, 1), CELL(1, 0), CELL(1, 50)),
     .input = BYTES(NUMBER(1)), .output_length = 4, .answer = 2,
     .memory_after = BYTES(CELL(1, 1), CELL(1, 0), CELL(1, 9)),
     .output_after = BYTES(NUMBER(8))},
    {.name = "reset of condition: the inner fires", .call = call_rounds,
     .sheet = BYTES(RESET_OF_CONDITION), .memory = BYTES(CELL(1, 1), CELL(1, 0), CELL(1, 50)),
     .input = BYTES(NUMBER(0)), .output_length = 4, .answer = 2,
     .memory_after = BYTES(CELL(1, 0), CELL(1, 0), CELL(1, 9)),
     .output_after = BYTES(NUMBER(8))},
    {.name = "reset of condition: none fires", .call = call_rounds,
     .sheet = BYTES(RESET_OF_CONDITION), .memory = BYTES(CELL(1, 0), CELL(1, 1), CELL(1, 50)),
     .input = BYTES(NUMBER(0)), .output_length = 4, .answer = 2,
     .memory_after = BYTES(CELL(1, 1), CELL(1, 0), CELL(1, 9)),
     .output_after = BYTES(NUMBER(50))},

    {.name = "reset of present: the arm not chosen starts again", .call = call_rounds,
     .sheet = BYTES(RESET_OF_PRESENT), .memory = BYTES(CELL(1, 0), CELL(1, 50)),
     .input = BYTES(NUMBER(1), NUMBER(0)), .output_length = 4, .answer = 2,
     .memory_after = BYTES(CELL(1, 1), CELL(1, 8)), .output_after = BYTES(NUMBER(4))},
    {.name = "reset of present: the arm not chosen is kept", .call = call_rounds,
     .sheet = BYTES(RESET_OF_PRESENT), .memory = BYTES(CELL(1, 1), CELL(1, 50)),
     .input = BYTES(NUMBER(0), NUMBER(0)), .output_length = 4, .answer = 2,
     .memory_after = BYTES(CELL(1, 1), CELL(1, 50)), .output_after = BYTES(NUMBER(4))},
    {.name = "reset of present: the arm chosen is fresh", .call = call_rounds,
     .sheet = BYTES(RESET_OF_PRESENT), .memory = BYTES(CELL(1, 0), CELL(1, 50)),
     .input = BYTES(NUMBER(1), NUMBER(1)), .output_length = 4, .answer = 2,
     .memory_after = BYTES(CELL(1, 0), CELL(1, 9)), .output_after = BYTES(NUMBER(8))},
    {.name = "reset of present: the arm chosen runs on", .call = call_rounds,
     .sheet = BYTES(RESET_OF_PRESENT), .memory = BYTES(CELL(1, 0), CELL(1, 50)),
     .input = BYTES(NUMBER(0), NUMBER(1)), .output_length = 4, .answer = 2,
     .memory_after = BYTES(CELL(1, 0), CELL(1, 9)), .output_after = BYTES(NUMBER(50))},

    {.name = "logic: false false", .call = call_rounds, .sheet = BYTES(LOGIC),
     .input = BYTES(NUMBER(0), NUMBER(0)), .output_length = 12, .answer = 2,
     .output_after = BYTES(NUMBER(0), NUMBER(0), NUMBER(1))},
    {.name = "logic: true false", .call = call_rounds, .sheet = BYTES(LOGIC),
     .input = BYTES(NUMBER(1), NUMBER(0)), .output_length = 12, .answer = 2,
     .output_after = BYTES(NUMBER(0), NUMBER(1), NUMBER(0))},
    {.name = "logic: false true", .call = call_rounds, .sheet = BYTES(LOGIC),
     .input = BYTES(NUMBER(0), NUMBER(1)), .output_length = 12, .answer = 2,
     .output_after = BYTES(NUMBER(0), NUMBER(1), NUMBER(1))},
    {.name = "logic: true true", .call = call_rounds, .sheet = BYTES(LOGIC),
     .input = BYTES(NUMBER(1), NUMBER(1)), .output_length = 12, .answer = 2,
     .output_after = BYTES(NUMBER(1), NUMBER(1), NUMBER(0))},

    {.name = "false and itself", .call = call_rounds, .sheet = BYTES(SELF_AND),
     .output_length = 4, .refused = 20, .place = 0},
    {.name = "true or itself", .call = call_rounds, .sheet = BYTES(SELF_OR), .output_length = 4,
     .refused = 20, .place = 0},
    {.name = "reset every itself of true", .call = call_rounds, .sheet = BYTES(SELF_RESET),
     .output_length = 4, .refused = 20, .place = 0},
    {.name = "present itself do true else true", .call = call_rounds,
     .sheet = BYTES(SELF_PRESENT), .output_length = 4, .refused = 20, .place = 0}
};

const struct table cases_of_readings = TABLE(rows);
