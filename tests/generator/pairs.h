/* Pairs of random sheets that are correct by construction, to be joined: any two, one twice, and two that come to a limit together or one
 * past it. A pair is kept as a board of two sheets is, so that memories and rows are filled part by part. Rests on boards.h.
 */
#ifndef GENERATOR_PAIRS_H
#define GENERATOR_PAIRS_H

#include "generator/boards.h"

enum { sheets_of_pair = 2, bytes_of_counts = 3 };

/* What is added up over the two sheets and has a limit. */
enum sum { sum_inputs, sum_wires, sum_outputs, sum_cells, sum_length, sums };

static const unsigned limit_of_sum[sums] = {most_inputs, most_wires, most_outputs, most_cells, longest_sheet};

void generate_pair(struct random *random, struct board *pair);

/* That of the joined sheet: the three counts of the second are not there again. */
unsigned sum_of_pair(const struct board *pair, enum sum sum);

#endif
