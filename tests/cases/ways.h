/* More words in which rows are written: checks, starts, and instants in rounds and along a list. Rests on the words of the rows. */
#ifndef CASES_WAYS_H
#define CASES_WAYS_H

#include "cases/rows.h"

#define NOTHING {NULL, 0}

#define REFUSED(title, number, at, ...) {.name = title, .call = call_check, .sheet = BYTES(__VA_ARGS__), .refused = number, .place = at}
#define PASSES(title, cells, ...) {.name = title, .call = call_check, .sheet = BYTES(__VA_ARGS__), .answer = cells}
#define STARTS(title, bytes, before, ...) \
    {.name = title, .call = call_start, .sheet = BYTES(bytes), .memory = before, .memory_after = BYTES(__VA_ARGS__)}

/* An instant in rounds, so many of them, and along a list. The output row comes last, behind its length. */
#define BOTH_WAYS(list, title, bytes, before, inputs, made, after, length, ...)                                                \
    {.name = title, .call = call_rounds, .sheet = BYTES(bytes), .memory = before, .input = inputs, .output_length = length,    \
     .answer = made, .memory_after = after, .output_after = BYTES(__VA_ARGS__)},                                               \
    {.name = title " along a list", .call = call_scheduled, .sheet = BYTES(bytes), .memory = before, .input = inputs,          \
     .output_length = length, .schedule = list, .memory_after = after, .output_after = BYTES(__VA_ARGS__)}

/* The memory comes last, and is what it was afterwards. */
#define REFUSED_IN_ROUNDS(title, number, at, length, bytes, ...)                                                               \
    {.name = title, .call = call_rounds, .sheet = BYTES(bytes), .memory = BYTES(__VA_ARGS__), .output_length = length,         \
     .refused = number, .place = at}
#define REFUSED_ALONG(list, title, number, at, length, bytes, ...)                                                             \
    {.name = title, .call = call_scheduled, .sheet = BYTES(bytes), .memory = BYTES(__VA_ARGS__), .output_length = length,      \
     .schedule = list, .refused = number, .place = at}
#define REFUSED_BOTH_WAYS(list, title, number, at, length, bytes, ...)                                                         \
    {.name = title, .call = call_rounds, .sheet = BYTES(bytes), .memory = BYTES(__VA_ARGS__), .output_length = length,         \
     .refused = number, .place = at},                                                                                          \
    {.name = title " along a list", .call = call_scheduled, .sheet = BYTES(bytes), .memory = BYTES(__VA_ARGS__),               \
     .output_length = length, .schedule = list, .refused = number, .place = at}

#endif
