/* Random numbers from a seed: the same on every machine. Rests on nothing. */
#ifndef GENERATOR_RANDOM_H
#define GENERATOR_RANDOM_H

#include <stdbool.h>
#include <stdint.h>

struct random {
    uint64_t state;
};

uint64_t next_random(struct random *random);

unsigned below(struct random *random, unsigned bound);

/* Both ends may come. */
unsigned between(struct random *random, unsigned least, unsigned most);

/* True in that share of the cases. */
bool percent(struct random *random, unsigned share);

/* A number value; small numbers and the ends of the range come often. */
uint32_t random_number(struct random *random);

/* A value of a type: 0 Boolean, 1 number. */
uint32_t random_value(struct random *random, unsigned type);

/* The numbers below the count in any order. */
void shuffle(struct random *random, uint8_t *bytes, unsigned count);

#endif
