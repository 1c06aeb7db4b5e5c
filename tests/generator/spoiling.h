/* How memories, rows and schedules are spoilt. Rests on buffer.h. */
#ifndef GENERATOR_SPOILING_H
#define GENERATOR_SPOILING_H

#include "generator/buffer.h"

/* Makes it longer or shorter. */
void spoil_length(struct random *random, struct buffer *buffer);

/* Spoils one or two things of memory, rows and schedule. */
void spoil_rows(struct random *random, struct buffers *buffers);

/* The same without the schedule. */
void spoil_memory_and_rows(struct random *random, struct buffers *buffers);

/* Spoils some cells or inputs; all lengths stay. */
void spoil_contents(struct random *random, struct buffers *buffers);

#endif
