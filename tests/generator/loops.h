/* The loops in which the wires of a generated sheet read each other within the instant. Rests on sheets.h for the reads. */
#ifndef GENERATOR_LOOPS_H
#define GENERATOR_LOOPS_H

#include "generator/sheets.h"

/* The fewest reads by which a wire comes back to itself, or 0 where it never does. */
unsigned reads_to_itself(const struct generator *generator, unsigned wire);

/* Whether reads lead from a wire onto a loop, so that no list has a place for it. */
bool leads_to_loop(const struct generator *generator, unsigned wire);

#endif
