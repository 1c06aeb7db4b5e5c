/* Which unknown wire waits for which, in careful C. A known condition waits for nothing, so that only the chosen arm, the operand or the body
 * that runs is looked at behind it. Rests on values.c for the value of a condition and on loops.c.
 */
#include "benchmark/careful/internal.h"

static uint64_t waits_of(const struct instant *instant, const struct node *node, bool fresh);

static uint64_t waits_of_present(const struct instant *instant, const struct node *node, bool fresh)
{
    const uint64_t condition = value_of(instant, node + 1, fresh);
    if (!is_known(condition))
        return waits_of(instant, node + 1, fresh);
    return waits_of(instant, (uint32_t)condition != 0 ? second_of(node) : third_of(node), fresh);
}

static uint64_t waits_of_reset(const struct instant *instant, const struct node *node, bool fresh)
{
    const uint64_t condition = value_of(instant, node + 1, fresh);
    if (!is_known(condition))
        return waits_of(instant, node + 1, fresh);
    return waits_of(instant, second_of(node), fresh || (uint32_t)condition != 0);
}

static uint64_t waits_of_machine(const struct instant *instant, const struct node *node, bool fresh)
{
    const bool second = second_state(instant, node, fresh);
    const uint64_t condition = value_of(instant, condition_of(node, second), fresh);
    if (!is_known(condition))
        return waits_of(instant, condition_of(node, second), fresh);
    const bool leaves = (uint32_t)condition != 0;
    return waits_of(instant, body_of(instant->program, node, second != leaves), fresh || leaves);
}

static uint64_t waits_of(const struct instant *instant, const struct node *node, bool fresh)
{
    switch (node->kind) {
    case kind_boolean:
    case kind_number:
    case kind_input:
    case kind_boolean_pre:
    case kind_number_pre:
    case kind_last:
        return 0;
    case kind_wire:
        return UINT64_C(1) << node->is.number & ~instant->known;
    case kind_not:
    case kind_negate:
        return waits_of(instant, node + 1, fresh);
    case kind_if:
        return waits_of(instant, node + 1, fresh) | waits_of(instant, second_of(node), fresh) | waits_of(instant, third_of(node), fresh);
    case kind_present:
        return waits_of_present(instant, node, fresh);
    case kind_reset:
        return waits_of_reset(instant, node, fresh);
    case kind_machine:
        return waits_of_machine(instant, node, fresh);
    case kind_fby:
        return fresh || instant->memory[bytes_of_cell * node->first_cell] == 0 ? waits_of(instant, node + 1, fresh) : 0;
    default:
        return waits_of(instant, node + 1, fresh) | waits_of(instant, second_of(node), fresh);
    }
}

unsigned lowest_waiting(const struct instant *instant, uint64_t unknown)
{
    uint64_t waits[most_wires];
    for (uint64_t left = unknown; left != 0; left &= left - 1)
        waits[lowest_of(left)] = waits_of(instant, instant->program->wire_node[lowest_of(left)], false);
    return lowest_looping(waits, unknown);
}
