/* Arithmetic, above all at the ends, where add, subtract and negate stop (document 02, K2). Rests on its own sheets. */
#include "cases/rows.h"

/* Numbers that are a few from an end. */
#define GREATEST_LESS(few) 255 - (few), 255, 255, 127
#define LEAST_PLUS(few) few, 0, 0, 128

/* Inputs x and y; wires: x below y, x equals y, x + y, x - y, -x. */
#define ARITHMETIC                                                                                                       \
    2, 1, 1, 5, 0, 0, 1, 1, 1, 5, 0, 1, 2, 3, 4, 10, 3, 0, 3, 1, 11, 3, 0, 3, 1, 8, 3, 0, 3, 1, 9, 3, 0, 3, 1, 5, 3, 0
/* 2147483646 fby (wire 0 + 1), and -2147483647 fby (wire 0 - 1). */
#define COUNT_UP 0, 1, 1, 1, 0, 17, 1, GREATEST_LESS(1), 8, 2, 0, 1, NUMBER(1)
#define COUNT_DOWN 0, 1, 1, 1, 0, 17, 1, LEAST_PLUS(1), 9, 2, 0, 1, NUMBER(1)
/* Without inputs: (2147483647 + 1) - 1, and -(-(-2147483648)). */
#define UP_AND_BACK 0, 1, 1, 1, 0, 9, 8, 1, GREATEST_NUMBER, 1, NUMBER(1), 1, NUMBER(1)
#define NEGATED_TWICE 0, 1, 1, 1, 0, 5, 5, 1, LEAST_NUMBER
/* Pre -2147483648 (2147483647), and whether the one is below the other. */
#define ENDS_HELD 0, 2, 1, 0, 2, 0, 1, 16, LEAST_NUMBER, 1, GREATEST_NUMBER, 10, 1, LEAST_NUMBER, 1, GREATEST_NUMBER

/* Two numbers, and in this order what ARITHMETIC gives of them in rounds and along a schedule. */
#define BOTH_WAYS(title, first, second, ...)                                                                             \
    {.name = title, .call = call_rounds, .sheet = BYTES(ARITHMETIC), .input = BYTES(first, second), .output_length = 20, \
     .answer = 2, .output_after = BYTES(__VA_ARGS__)},                                                                   \
    {.name = title " along a schedule", .call = call_scheduled, .sheet = BYTES(ARITHMETIC),                              \
     .input = BYTES(first, second), .output_length = 20, .schedule = BYTES(4, 2, 3, 1, 0), .output_after = BYTES(__VA_ARGS__)}

/* One instant of a sheet with one cell and one output. */
#define INSTANT(title, bytes, before, after, ...)                                                            \
    {.name = title, .call = call_rounds, .sheet = BYTES(bytes), .memory = BYTES(before), .output_length = 4, \
     .answer = 2, .memory_after = BYTES(after), .output_after = BYTES(__VA_ARGS__)}

static const struct row rows[] = {
    BOTH_WAYS("-1 is below 0", MINUS(1), NUMBER(0), NUMBER(1), NUMBER(0), MINUS(1), MINUS(1), NUMBER(1)),
    BOTH_WAYS("equal is not below", MINUS(3), MINUS(3), NUMBER(0), NUMBER(1), MINUS(6), NUMBER(0), NUMBER(3)),
    {.name = "all four bytes are compared", .call = call_rounds, .sheet = BYTES(ARITHMETIC),
     .input = BYTES(0, 0, 1, 0, NUMBER(0)), .output_length = 20, .answer = 2,
     .output_after = BYTES(NUMBER(0), NUMBER(0), 0, 0, 1, 0, 0, 0, 1, 0, 0, 0, 255, 255)},

    BOTH_WAYS("the greatest and 0", GREATEST_NUMBER, NUMBER(0), NUMBER(0), NUMBER(0), GREATEST_NUMBER, GREATEST_NUMBER,
              LEAST_PLUS(1)),
    BOTH_WAYS("the greatest and 1", GREATEST_NUMBER, NUMBER(1), NUMBER(0), NUMBER(0), GREATEST_NUMBER, GREATEST_LESS(1),
              LEAST_PLUS(1)),
    BOTH_WAYS("1 and the greatest", NUMBER(1), GREATEST_NUMBER, NUMBER(1), NUMBER(0), GREATEST_NUMBER, LEAST_PLUS(2), MINUS(1)),
    BOTH_WAYS("the greatest and -1", GREATEST_NUMBER, MINUS(1), NUMBER(0), NUMBER(0), GREATEST_LESS(1), GREATEST_NUMBER,
              LEAST_PLUS(1)),
    BOTH_WAYS("the greatest twice", GREATEST_NUMBER, GREATEST_NUMBER, NUMBER(0), NUMBER(1), GREATEST_NUMBER, NUMBER(0),
              LEAST_PLUS(1)),
    BOTH_WAYS("a sum that is the upper end", GREATEST_LESS(1), NUMBER(1), NUMBER(0), NUMBER(0), GREATEST_NUMBER, GREATEST_LESS(2),
              LEAST_PLUS(2)),
    BOTH_WAYS("a sum one above the upper end", GREATEST_LESS(1), NUMBER(2), NUMBER(0), NUMBER(0), GREATEST_NUMBER,
              GREATEST_LESS(3), LEAST_PLUS(2)),

    BOTH_WAYS("the least and 0", LEAST_NUMBER, NUMBER(0), NUMBER(1), NUMBER(0), LEAST_NUMBER, LEAST_NUMBER, GREATEST_NUMBER),
    BOTH_WAYS("the least and 1", LEAST_NUMBER, NUMBER(1), NUMBER(1), NUMBER(0), LEAST_PLUS(1), LEAST_NUMBER, GREATEST_NUMBER),
    BOTH_WAYS("the least and -1", LEAST_NUMBER, MINUS(1), NUMBER(1), NUMBER(0), LEAST_NUMBER, LEAST_PLUS(1), GREATEST_NUMBER),
    BOTH_WAYS("the least twice", LEAST_NUMBER, LEAST_NUMBER, NUMBER(0), NUMBER(1), LEAST_NUMBER, NUMBER(0), GREATEST_NUMBER),
    BOTH_WAYS("0 and the least", NUMBER(0), LEAST_NUMBER, NUMBER(0), NUMBER(0), LEAST_NUMBER, GREATEST_NUMBER, NUMBER(0)),
    BOTH_WAYS("a difference that is the upper end", MINUS(1), LEAST_NUMBER, NUMBER(0), NUMBER(0), LEAST_NUMBER, GREATEST_NUMBER,
              NUMBER(1)),
    BOTH_WAYS("a difference one below the upper end", MINUS(2), LEAST_NUMBER, NUMBER(0), NUMBER(0), LEAST_NUMBER, GREATEST_LESS(1),
              NUMBER(2)),
    BOTH_WAYS("a difference that is the lower end", MINUS(1), GREATEST_NUMBER, NUMBER(1), NUMBER(0), GREATEST_LESS(1),
              LEAST_NUMBER, NUMBER(1)),
    BOTH_WAYS("a difference one below the lower end", MINUS(2), GREATEST_NUMBER, NUMBER(1), NUMBER(0), GREATEST_LESS(2),
              LEAST_NUMBER, NUMBER(2)),
    BOTH_WAYS("the least and the greatest", LEAST_NUMBER, GREATEST_NUMBER, NUMBER(1), NUMBER(0), MINUS(1), LEAST_NUMBER,
              GREATEST_NUMBER),
    BOTH_WAYS("the greatest and the least", GREATEST_NUMBER, LEAST_NUMBER, NUMBER(0), NUMBER(0), MINUS(1), GREATEST_NUMBER,
              LEAST_PLUS(1)),
    BOTH_WAYS("the opposite that is the upper end", LEAST_PLUS(1), NUMBER(0), NUMBER(1), NUMBER(0), LEAST_PLUS(1), LEAST_PLUS(1),
              GREATEST_NUMBER),

    INSTANT("counting up: one below the end", COUNT_UP, CELL(0, 0), STARTED_CELL(GREATEST_NUMBER), GREATEST_LESS(1)),
    INSTANT("counting up: at the end", COUNT_UP, STARTED_CELL(GREATEST_NUMBER), STARTED_CELL(GREATEST_NUMBER), GREATEST_NUMBER),
    INSTANT("counting down: one above the end", COUNT_DOWN, CELL(0, 0), STARTED_CELL(LEAST_NUMBER), LEAST_PLUS(1)),
    INSTANT("counting down: at the end", COUNT_DOWN, STARTED_CELL(LEAST_NUMBER), STARTED_CELL(LEAST_NUMBER), LEAST_NUMBER),
    {.name = "counting up at the end along 0", .call = call_scheduled, .sheet = BYTES(COUNT_UP),
     .memory = BYTES(STARTED_CELL(GREATEST_NUMBER)), .output_length = 4, .schedule = BYTES(0),
     .memory_after = BYTES(STARTED_CELL(GREATEST_NUMBER)), .output_after = BYTES(GREATEST_NUMBER)},

    {.name = "each operation stops its own result", .call = call_rounds, .sheet = BYTES(UP_AND_BACK), .output_length = 4,
     .answer = 2, .output_after = BYTES(GREATEST_LESS(1))},
    {.name = "negated twice the least is not itself", .call = call_rounds, .sheet = BYTES(NEGATED_TWICE), .output_length = 4,
     .answer = 2, .output_after = BYTES(LEAST_PLUS(1))},
    {.name = "constants and cells hold the ends: start", .call = call_start, .sheet = BYTES(ENDS_HELD), .memory = BYTES(CELL(9, 9)),
     .memory_after = BYTES(STARTED_CELL(LEAST_NUMBER))},
    {.name = "constants and cells hold the ends: instant", .call = call_rounds, .sheet = BYTES(ENDS_HELD),
     .memory = BYTES(STARTED_CELL(LEAST_NUMBER)), .output_length = 8, .answer = 2,
     .memory_after = BYTES(STARTED_CELL(GREATEST_NUMBER)), .output_after = BYTES(LEAST_NUMBER, NUMBER(1))},
};

const struct table cases_of_arithmetic = TABLE(rows);
