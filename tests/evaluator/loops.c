/* Loops among wires, each of which leads to the wires of its set. Rests on nothing but the C language. */
#include "evaluator/internal.h"

/* The wires to which a wire leads in one or more steps: those of its set, and as long as any is added, those of their sets. */
static uint64_t reached_from(const uint64_t *sets, unsigned wires, unsigned wire)
{
    uint64_t reached = sets[wire];
    uint64_t before = 0;
    while (reached != before) {
        before = reached;
        for (unsigned other = 0; other < wires; other++) {
            if ((before >> other & 1) != 0)
                reached |= sets[other];
        }
    }
    return reached;
}

unsigned lowest_on_loop(const uint64_t *sets, unsigned wires)
{
    unsigned wire = 0;
    while (wire < wires && (reached_from(sets, wires, wire) >> wire & 1) == 0)
        wire++;
    return wire;
}
