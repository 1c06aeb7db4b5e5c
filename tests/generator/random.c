/* Random numbers by splitmix64, and the shapes in which the generator wants them. Rests on nothing. */
#include "generator/random.h"

uint64_t next_random(struct random *random)
{
    /* splitmix64 */
    uint64_t mixed = random->state += UINT64_C(0x9E3779B97F4A7C15);
    mixed = (mixed ^ mixed >> 30) * UINT64_C(0xBF58476D1CE4E5B9);
    mixed = (mixed ^ mixed >> 27) * UINT64_C(0x94D049BB133111EB);
    return mixed ^ mixed >> 31;
}

unsigned below(struct random *random, unsigned bound)
{
    return (unsigned)((next_random(random) >> 32) * bound >> 32);
}

unsigned between(struct random *random, unsigned least, unsigned most)
{
    return least + below(random, most - least + 1);
}

bool percent(struct random *random, unsigned share)
{
    return below(random, 100) < share;
}

/* Small numbers make equal and less than interesting, the ends of the range make results that stop there. */
uint32_t random_number(struct random *random)
{
    static const uint32_t ends[] = {UINT32_C(0x7FFFFFFF), UINT32_C(0x80000000),
                                    UINT32_C(0x80000001), UINT32_C(0xFFFFFFFF)};
    switch (below(random, 4)) {
    case 0:
        return ends[below(random, 4)];
    case 1:
        return (uint32_t)next_random(random);
    default:
        return below(random, 4);
    }
}

uint32_t random_value(struct random *random, unsigned type)
{
    return type == 0 ? below(random, 2) : random_number(random);
}

void shuffle(struct random *random, uint8_t *bytes, unsigned count)
{
    for (unsigned index = 0; index < count; index++)
        bytes[index] = (uint8_t)index;
    for (unsigned index = count; index > 1; index--) {
        const unsigned other = below(random, index);
        const uint8_t byte = bytes[index - 1];
        bytes[index - 1] = bytes[other];
        bytes[other] = byte;
    }
}
