/* Which unknown wire waits for which, document 02, K5: from which wires the value of an expression is worked out, under the finished values
 * of an instant. Rests on values.c for the value of a condition and on loops.c.
 */
#include "evaluator/internal.h"

static uint64_t waits_of(struct instant *instant, bool fresh);

static uint64_t waits_of_operands(struct instant *instant, unsigned operands, bool fresh)
{
    uint64_t waits = 0;
    for (unsigned index = 0; index < operands; index++)
        waits |= waits_of(instant, fresh);
    return waits;
}

/* The value of the expression that comes next, without moving. */
static struct value value_ahead(const struct instant *instant, bool fresh)
{
    struct instant ahead = *instant;
    return value_of(&ahead, fresh);
}

/* With an unknown condition only the condition counts; with a known one, the condition and the chosen arm. */
static uint64_t waits_of_present(struct instant *instant, bool fresh)
{
    const struct value condition = value_ahead(instant, fresh);
    uint64_t waits = waits_of(instant, fresh);
    for (unsigned arm = 0; arm < 2; arm++) {
        if (condition.known && (condition.number != 0) == (arm == 0))
            waits |= waits_of(instant, fresh);
        else
            pass_over(instant);
    }
    return waits;
}

/* With an unknown condition only the condition counts; with a known one, the condition and the operand. */
static uint64_t waits_of_reset(struct instant *instant, bool fresh)
{
    const struct value condition = value_ahead(instant, fresh);
    uint64_t waits = waits_of(instant, fresh);
    if (condition.known)
        waits |= waits_of(instant, fresh || condition.number != 0);
    else
        pass_over(instant);
    return waits;
}

/* The left side counts only when fresh or not started. */
static uint64_t waits_of_fby(struct instant *instant, bool fresh)
{
    const uint8_t *const cell = instant->memory + bytes_of_cell * instant->next_cell++;
    uint64_t waits = 0;
    if (fresh || cell[0] == 0)
        waits = waits_of(instant, fresh);
    else
        pass_over(instant);
    pass_over(instant);
    return waits;
}

/* The asked condition counts, and once it is known the body that runs. */
static uint64_t waits_of_machine(struct instant *instant, bool fresh)
{
    const unsigned state = take_state(instant, fresh);
    struct value condition = {0, false};
    uint64_t waits = 0;
    for (unsigned operand = 0; operand < machine_operands; operand++) {
        const struct turn turn = turn_of(operand, state, condition, fresh);
        if (turn.runs && operand < machine_conditions)
            condition = value_ahead(instant, turn.fresh);
        if (turn.runs)
            waits |= waits_of(instant, turn.fresh);
        else
            pass_over(instant);
    }
    return waits;
}

/* The wires from which the expression that comes next is worked out, one bit each; moves behind it. */
static uint64_t waits_of(struct instant *instant, bool fresh)
{
    const uint8_t *const expression = instant->next;
    const unsigned kind = expression[0];
    if (kind == kind_boolean_pre || kind == kind_number_pre) {
        pass_over(instant);
        return 0;
    }
    instant->next = expression + 1 + shapes[kind].body;
    switch (kind) {
    case kind_wire:
        return UINT64_C(1) << expression[1];
    case kind_present:
        return waits_of_present(instant, fresh);
    case kind_reset:
        return waits_of_reset(instant, fresh);
    case kind_fby:
        return waits_of_fby(instant, fresh);
    case kind_machine:
        return waits_of_machine(instant, fresh);
    default:
        return waits_of_operands(instant, shapes[kind].operands, fresh);
    }
}

/* An unknown wire waits for the unknown ones among those from which it is worked out. */
void find_waits(struct instant *instant, uint64_t *waits)
{
    const unsigned wires = instant->layout->wires;
    uint64_t unknown = 0;
    for (unsigned wire = 0; wire < wires; wire++)
        unknown |= (uint64_t)!instant->wires[wire].known << wire;
    for (unsigned wire = 0; wire < wires; wire++) {
        move_to_wire(instant, wire);
        waits[wire] = (unknown >> wire & 1) != 0 ? waits_of(instant, false) & unknown : 0;
    }
}
