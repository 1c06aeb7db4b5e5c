/* Whether the yardsticks do what the library does. Rests on the sheets, the boards, the pairs and the times. */
#ifndef BENCHMARK_AGREEMENT_H
#define BENCHMARK_AGREEMENT_H

#include "benchmark/boards.h"
#include "benchmark/pairs.h"

#include <stdbool.h>

/* Starts the memories of a group that has none yet, and makes every call of every sheet, instant after instant, by the library and by
 * the yardsticks: each must be accepted, with the same answer and the same bytes. Else what differs is printed, and false answered. */
bool prepare_group(struct group *group);

/* The same of the ticks of a board, one after the other, as it has them. */
bool ticks_agree(const struct board *board);

/* And of the joins of pairs. */
bool joins_agree(const struct pairs *pairs);

#endif
