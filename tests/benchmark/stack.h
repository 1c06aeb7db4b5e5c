/* How much stack a call of the library takes. Rests on the sheets, the boards and the pairs. */
#ifndef BENCHMARK_STACK_H
#define BENCHMARK_STACK_H

#include "benchmark/boards.h"
#include "benchmark/pairs.h"

/* The deepest of the groups' sheets, in bytes. */
size_t stack_of_call(enum call call, struct group *groups, unsigned count);

/* The deepest tick of the boards, each of whose sheets has one. */
size_t stack_of_tick(struct board *boards, unsigned count);

/* The deepest join of the pairs. */
size_t stack_of_join(struct pairs *pairs, unsigned count);

#endif
