/* A hand-written case as a row of bytes and expected numbers, a table of them, and the words in which rows are written. Rests on the
 * table of calls.
 */
#ifndef CASES_ROWS_H
#define CASES_ROWS_H

#include "common/calls.h"

struct bytes {
    const uint8_t *start;
    size_t length;
};

/* Either refused at a place, or accepted with an answer, and then with these bytes afterwards; a state also where 20 is refused. */
struct row {
    const char *name;
    enum call call;
    struct bytes sheet;
    struct bytes memory;
    struct bytes input;
    size_t output_length;
    struct bytes schedule;
    struct bytes board;
    struct bytes state;
    struct bytes first;
    struct bytes second;
    size_t joined_length;
    uint32_t refused;
    uint32_t place;
    bool in_second; /* a join is refused for its second sheet */
    uint32_t answer;
    struct bytes memory_after;
    struct bytes output_after;
    struct bytes schedule_after;
    struct bytes state_after;
    struct bytes joined_after;
};

struct table {
    const struct row *rows;
    size_t count;
};

#define TABLE(rows) {rows, sizeof(rows) / sizeof(rows)[0]}

/* 2 to the 16th: a length above it by what is right would pass if only its lower sixteen bits were looked at. And what a buffer holds where
 * a row gives no bytes. */
enum { sixteen_bits = 65536, rubbish = 170 };

#define LENGTH_OF(...) sizeof((const uint8_t[]){__VA_ARGS__})
#define BYTES(...) {(const uint8_t[]){__VA_ARGS__}, LENGTH_OF(__VA_ARGS__)}
#define ALL_OF(bytes) {bytes, sizeof(bytes)}

/* Four bytes of a number from 0 to 255 or from -255 to -1, five bytes of a cell, and those of one that holds a number of four bytes. */
#define NUMBER(low) low, 0, 0, 0
#define MINUS(low) 256 - (low), 255, 255, 255
#define LEAST_NUMBER 0, 0, 0, 128
#define GREATEST_NUMBER 255, 255, 255, 127
#define CELL(mark, low) mark, low, 0, 0, 0
#define STARTED_CELL(...) 1, __VA_ARGS__

/* Constants, a wire, an input and the last of a kept wire; and the head of a sheet of number wires without inputs, wire 0 the output. */
#define BOOLEAN(value) 0, value
#define ALWAYS BOOLEAN(1)
#define NEVER BOOLEAN(0)
#define CONSTANT(low) 1, NUMBER(low)
#define WIRE(number) 2, number
#define INPUT(number) 3, number
#define LAST(number) 18, number
#define WIRES_2 0, 2, 1, 1, 1, 0
#define WIRES_3 0, 3, 1, 1, 1, 1, 0
#define WIRES_4 0, 4, 1, 1, 1, 1, 1, 0
#define WIRES_5 0, 5, 1, 1, 1, 1, 1, 1, 0

/* A lent list that holds rubbish, and a schedule made over it, with the greatest depth. */
#define LENT(length) {NULL, length}
#define MADE(title, depth, bytes, ...)                                                                  \
    {.name = title, .call = call_make, .sheet = BYTES(bytes), .schedule = LENT(LENGTH_OF(__VA_ARGS__)), \
     .answer = depth, .schedule_after = BYTES(__VA_ARGS__)}

#define TWICE(...) __VA_ARGS__, __VA_ARGS__
#define TIMES_4(...) TWICE(TWICE(__VA_ARGS__))
#define TIMES_7(...) TIMES_4(__VA_ARGS__), TWICE(__VA_ARGS__), __VA_ARGS__
#define TIMES_8(...) TWICE(TIMES_4(__VA_ARGS__))
#define TIMES_15(...) TIMES_8(__VA_ARGS__), TIMES_4(__VA_ARGS__), TWICE(__VA_ARGS__), __VA_ARGS__
#define TIMES_16(...) TWICE(TIMES_8(__VA_ARGS__))
#define TIMES_32(...) TWICE(TIMES_16(__VA_ARGS__))
#define TIMES_64(...) TWICE(TIMES_32(__VA_ARGS__))
#define TIMES_63(...) TIMES_32(__VA_ARGS__), TIMES_16(__VA_ARGS__), TIMES_15(__VA_ARGS__)

#endif
