/* The value of an expression under the wires, the inputs and the memory of an instant, which it leaves alone.
 * Rests on reading.c: the sheet has passed the check.
 */
#include "evaluator/internal.h"

static struct value known_value(uint32_t number)
{
    return (struct value){number, true};
}

static struct value unknown_value(void)
{
    return (struct value){0, false};
}

void pass_over(struct instant *instant)
{
    const uint8_t *next = instant->next;
    unsigned cell = instant->next_cell;
    for (unsigned pending = 1; pending != 0; pending--) {
        const unsigned kind = *next;
        next += 1 + shapes[kind].body;
        pending += shapes[kind].operands;
        cell += owns_cell(kind);
    }
    instant->next = next;
    instant->next_cell = cell;
}

/* The whole number that 32 bits stand for. */
static int64_t whole_number(uint32_t bits)
{
    return bits <= INT32_MAX ? (int64_t)bits : (int64_t)bits - INT64_C(4294967296);
}

/* The bits of an exact result. A full register stays full: the result stops at the ends of 32 bits. */
static uint32_t stopped(int64_t exact)
{
    if (exact > INT32_MAX)
        return UINT32_C(0x7FFFFFFF);
    if (exact < INT32_MIN)
        return UINT32_C(0x80000000);
    return (uint32_t)exact;
}

uint32_t result_of_one(unsigned kind, uint32_t operand)
{
    return kind == kind_not ? 1u - operand : stopped(-whole_number(operand));
}

uint32_t result_of_two(unsigned kind, uint32_t first, uint32_t second)
{
    switch (kind) {
    case kind_and:
        return first & second;
    case kind_or:
        return first | second;
    case kind_add:
        return stopped(whole_number(first) + whole_number(second));
    case kind_subtract:
        return stopped(whole_number(first) - whole_number(second));
    case kind_less:
        return whole_number(first) < whole_number(second);
    default:
        return first == second;
    }
}

static struct value value_of_one_operand(struct instant *instant, unsigned kind, bool fresh)
{
    const struct value operand = value_of(instant, fresh);
    return operand.known ? known_value(result_of_one(kind, operand.number)) : unknown_value();
}

static struct value value_of_two_operands(struct instant *instant, unsigned kind, bool fresh)
{
    const struct value first = value_of(instant, fresh);
    const struct value second = value_of(instant, fresh);
    if (!first.known || !second.known)
        return unknown_value();
    return known_value(result_of_two(kind, first.number, second.number));
}

static struct value value_of_if(struct instant *instant, bool fresh)
{
    const struct value condition = value_of(instant, fresh);
    const struct value then_arm = value_of(instant, fresh);
    const struct value else_arm = value_of(instant, fresh);
    if (!condition.known || !then_arm.known || !else_arm.known)
        return unknown_value();
    return condition.number != 0 ? then_arm : else_arm;
}

static struct value value_of_present(struct instant *instant, bool fresh)
{
    const struct value condition = value_of(instant, fresh);
    struct value chosen = unknown_value();
    if (!condition.known) {
        pass_over(instant);
        pass_over(instant);
    } else if (condition.number != 0) {
        chosen = value_of(instant, fresh);
        pass_over(instant);
    } else {
        pass_over(instant);
        chosen = value_of(instant, fresh);
    }
    return chosen;
}

static struct value value_of_reset(struct instant *instant, bool fresh)
{
    const struct value condition = value_of(instant, fresh);
    if (!condition.known) {
        pass_over(instant);
        return unknown_value();
    }
    return value_of(instant, fresh || condition.number != 0);
}

static struct value value_of_pre(struct instant *instant, const uint8_t *pre, bool fresh)
{
    const uint8_t *const cell = instant->memory + bytes_of_cell * instant->next_cell++;
    pass_over(instant);
    return known_value(fresh ? starting_constant(pre) : read_number(cell + 1));
}

static struct value value_of_fby(struct instant *instant, bool fresh)
{
    const uint8_t *const cell = instant->memory + bytes_of_cell * instant->next_cell++;
    struct value value = known_value(read_number(cell + 1));
    if (fresh || cell[0] == 0)
        value = value_of(instant, fresh);
    else
        pass_over(instant);
    pass_over(instant);
    return value;
}

/* An unknown condition gives unknown, a known one the value of the body that runs. */
static struct value value_of_machine(struct instant *instant, bool fresh)
{
    const unsigned state = take_state(instant, fresh);
    struct value condition = unknown_value();
    struct value body = unknown_value();
    bool others_known = true;
    for (unsigned operand = 0; operand < machine_operands; operand++) {
        const struct turn turn = turn_of(operand, state, condition, fresh);
        if (turn.runs && operand < machine_conditions)
            condition = value_of(instant, turn.fresh);
        else if (turn.runs)
            body = value_of(instant, turn.fresh);
        else if (operand >= machine_conditions && instant->no_body_rests)
            others_known = value_of(instant, fresh).known && others_known;
        else
            pass_over(instant);
    }
    return others_known ? body : unknown_value();
}

/* Fresh or not, the value is that of the cell, since no reset touches it. */
static struct value value_of_last(struct instant *instant, unsigned wire, bool fresh)
{
    const uint8_t *const cell = instant->memory + bytes_of_cell * kept_cell(instant->layout, wire);
    instant->lasts.given |= UINT64_C(1) << wire;
    instant->lasts.given_fresh |= (uint64_t)fresh << wire;
    return known_value(read_number(cell + 1));
}

struct value value_of(struct instant *instant, bool fresh)
{
    const uint8_t *const expression = instant->next;
    const unsigned kind = expression[0];
    instant->next = expression + 1 + shapes[kind].body;
    switch (kind) {
    case kind_boolean:
        return known_value(expression[1]);
    case kind_number:
        return known_value(read_number(expression + 1));
    case kind_wire:
        return instant->wires[expression[1]];
    case kind_input:
        return known_value(read_number(instant->input + bytes_of_number * expression[1]));
    case kind_not:
    case kind_negate:
        return value_of_one_operand(instant, kind, fresh);
    case kind_if:
        return value_of_if(instant, fresh);
    case kind_present:
        return value_of_present(instant, fresh);
    case kind_reset:
        return value_of_reset(instant, fresh);
    case kind_boolean_pre:
    case kind_number_pre:
        return value_of_pre(instant, expression, fresh);
    case kind_fby:
        return value_of_fby(instant, fresh);
    case kind_last:
        return value_of_last(instant, expression[1], fresh);
    case kind_machine:
        return value_of_machine(instant, fresh);
    default:
        return value_of_two_operands(instant, kind, fresh);
    }
}
