/* How often the rounds of an instant visit a wire. Rests on the sheets. */
#ifndef BENCHMARK_VISITS_H
#define BENCHMARK_VISITS_H

#include "benchmark/sheets.h"

/* Prints a line for a group, of one instant of each of its sheets: the visits, which are of unknown wires that are due, those that rounds
 * over all unknown wires would make, and those of rounds over all wires. */
void print_visits(const struct group *group);

#endif
