/* How long a call takes. Rests on the sheets, the boards and the pairs. */
#ifndef BENCHMARK_TIMES_H
#define BENCHMARK_TIMES_H

#include "benchmark/boards.h"
#include "benchmark/pairs.h"

enum { yardsticks = 2 };

struct yardstick {
    const char *name;
    const struct implementation *implementation;
};

/* The implementations in C: the evaluator, and careful C. */
extern const struct yardstick yardstick[yardsticks];

void print_head_of_times(void);

/* Prints the line of a call and a group: the library's time for one call, that of the faster yardstick, and the ratio. */
void print_times(enum call call, const struct group *group);

/* That of the tick and a board. */
void print_times_of_ticks(const struct board *board);

/* That of the join and pairs. */
void print_times_of_joins(const struct pairs *pairs);

#endif
