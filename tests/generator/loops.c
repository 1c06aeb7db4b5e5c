/* The loops of a generated sheet, found by going read after read. Rests on what the generator knows of the reads. */
#include "generator/loops.h"

/* The wires that these wires read. */
static uint64_t read_by(const struct generator *generator, uint64_t wires)
{
    uint64_t reads = 0;
    for (unsigned wire = 0; wire < generator->plan.wires; wire++) {
        if ((wires >> wire & 1) != 0)
            reads |= generator->reads[wire];
    }
    return reads;
}

unsigned reads_to_itself(const struct generator *generator, unsigned wire)
{
    uint64_t arrived = UINT64_C(1) << wire;
    /* The shortest way back meets no wire twice, so it has no more reads than there are wires. */
    for (unsigned reads = 1; reads <= generator->plan.wires; reads++) {
        arrived = read_by(generator, arrived);
        if ((arrived >> wire & 1) != 0)
            return reads;
    }
    return 0;
}

bool leads_to_loop(const struct generator *generator, unsigned wire)
{
    uint64_t arrived = UINT64_C(1) << wire;
    /* A way with as many reads as there are wires has met a wire twice. */
    for (unsigned reads = 0; reads < generator->plan.wires; reads++)
        arrived = read_by(generator, arrived);
    return arrived != 0;
}
