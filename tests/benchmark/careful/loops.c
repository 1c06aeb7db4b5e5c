/* Loops among wires, each of which leads to the wires of its set, in careful C. Rests on nothing but the C language. */
#include "benchmark/careful/internal.h"

static bool leads_to_itself(const uint64_t *sets, unsigned wire)
{
    uint64_t reached = 0;
    uint64_t added = sets[wire];
    while (added != 0) {
        reached |= added;
        added = (added & (added - 1)) | (sets[lowest_of(added)] & ~reached);
    }
    return (reached >> wire & 1) != 0;
}

unsigned lowest_looping(const uint64_t *sets, uint64_t wires)
{
    while (!leads_to_itself(sets, lowest_of(wires)))
        wires &= wires - 1;
    return lowest_of(wires);
}
