/* The evaluator's maker of schedules: whether a list exists is told from what the wires reach, the list is then put together position by
 * position, and the depths are found by themselves. Rests on reading.c for the sheet and its reads, and on loops.c.
 */
#include "evaluator/internal.h"

/* Refusal 21. A wire that reaches itself would have to stand before itself in a list. Where none does, going from a wire to one that it
 * reads always comes to an end, so that a list exists. */
static uint32_t check_loops(const struct layout *layout)
{
    const unsigned wire = lowest_on_loop(layout->wire_reads, layout->wires);
    return wire < layout->wires ? refusal(21, wire) : 0;
}

static bool may_come_next(const struct layout *layout, unsigned wire, uint64_t placed)
{
    return (placed >> wire & 1) == 0 && (layout->wire_reads[wire] & ~placed) == 0;
}

/* No wire reaches itself and not all are placed, so there is one. */
static unsigned lowest_that_may_come_next(const struct layout *layout, uint64_t placed)
{
    unsigned wire = 0;
    while (!may_come_next(layout, wire, placed))
        wire++;
    return wire;
}

/* Raises the depth of a wire above those of all that it reads; answers whether it was below. */
static bool raise_depth(const struct layout *layout, unsigned wire, unsigned *depths)
{
    bool raised = false;
    for (unsigned read = 0; read < layout->wires; read++) {
        if ((layout->wire_reads[wire] >> read & 1) != 0 && depths[wire] <= depths[read]) {
            depths[wire] = depths[read] + 1;
            raised = true;
        }
    }
    return raised;
}

/* From 1 for each wire the depths are raised until none is below what K6 asks. As no wire reaches itself, that comes to an end, and no depth
 * is above what K6 asks. */
static unsigned greatest_depth(const struct layout *layout)
{
    unsigned depths[most_wires];
    unsigned greatest = 0;
    for (unsigned wire = 0; wire < layout->wires; wire++)
        depths[wire] = 1;
    for (bool raised = true; raised;) {
        raised = false;
        for (unsigned wire = 0; wire < layout->wires; wire++)
            raised = raise_depth(layout, wire, depths) || raised;
    }
    for (unsigned wire = 0; wire < layout->wires; wire++)
        greatest = depths[wire] > greatest ? depths[wire] : greatest;
    return greatest;
}

uint32_t evaluator_schedule(const uint8_t *sheet, size_t sheet_length, uint8_t *list, size_t list_length)
{
    struct layout layout;
    uint32_t refused = read_sheet(&layout, sheet, sheet_length);
    if (refused == 0 && list_length != layout.wires)
        refused = refusal(17, 0);
    if (refused == 0)
        refused = check_loops(&layout);
    if (refused != 0)
        return refused;

    uint64_t placed = 0;
    for (unsigned position = 0; position < layout.wires; position++) {
        const unsigned wire = lowest_that_may_come_next(&layout, placed);
        list[position] = (uint8_t)wire;
        placed |= UINT64_C(1) << wire;
    }
    return greatest_depth(&layout);
}
