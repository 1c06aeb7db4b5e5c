/* Memories, rows and schedules for a sheet. Rests on sheets.h for what the generator knows of it. */
#ifndef GENERATOR_ROWS_H
#define GENERATOR_ROWS_H

#include "generator/sheets.h"

void fill_input(struct random *random, const uint8_t *types, unsigned inputs, struct buffer *input);

/* A valid memory that need not be one the sheet ever comes to. */
void fill_memory(struct random *random, const struct generator *generator, struct buffer *memory);

/* A random list in which every wire comes after the wires it reads, as far as one exists; wires
 * on a cycle follow in any order. Answers whether one exists. */
bool fill_schedule(struct random *random, const struct generator *generator, struct buffer *schedule);

void fill_with_permutation(struct random *random, unsigned wires, struct buffer *schedule);

#endif
