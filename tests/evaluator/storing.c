/* What an instant stores: each expression is advanced under the finished values, which gives its value and writes its cells.
 * Rests on reading.c for the places of the cells and on values.c for what has no cells of its own.
 *
 * The cell of an expression is read before the operand behind it is advanced and written afterwards. Its owner is its only reader, so the
 * old memory is overwritten in place. A kept cell has readers everywhere: it is written when all expressions have been advanced.
 */
#include "evaluator/internal.h"

static uint32_t advance(struct instant *instant, bool fresh);

static void write_cell(uint8_t *cell, uint8_t mark, uint32_t number)
{
    cell[0] = mark;
    write_number(cell + 1, number);
}

/* That of a pre is its constant; all other cells start as 0. */
static uint32_t starting_number(const struct layout *layout, unsigned cell)
{
    const uint8_t *const owner = layout->sheet + layout->cell_place[cell];
    const bool of_pre = layout->cell_place[cell] != 0 && (*owner == kind_boolean_pre || *owner == kind_number_pre);
    return of_pre ? starting_constant(owner) : 0;
}

void start_cell(const struct layout *layout, unsigned cell, uint8_t *memory)
{
    write_cell(memory + bytes_of_cell * cell, !belongs_to_fby(layout, cell), starting_number(layout, cell));
}

/* Goes over an arm that is not chosen, or an operand that rests. Its memory is kept, or started again if fresh. */
static void keep_or_start(struct instant *instant, bool fresh)
{
    const unsigned first_cell = instant->next_cell;
    pass_over(instant);
    for (unsigned cell = first_cell; fresh && cell < instant->next_cell; cell++)
        start_cell(instant->layout, cell, instant->memory);
}

static uint32_t advance_two_operands(struct instant *instant, unsigned kind, bool fresh)
{
    const uint32_t first = advance(instant, fresh);
    const uint32_t second = advance(instant, fresh);
    return result_of_two(kind, first, second);
}

static uint32_t advance_if(struct instant *instant, bool fresh)
{
    const uint32_t condition = advance(instant, fresh);
    const uint32_t then_arm = advance(instant, fresh);
    const uint32_t else_arm = advance(instant, fresh);
    return condition != 0 ? then_arm : else_arm;
}

static uint32_t advance_present(struct instant *instant, bool fresh)
{
    uint32_t chosen;
    if (advance(instant, fresh) != 0) {
        chosen = advance(instant, fresh);
        keep_or_start(instant, fresh);
    } else {
        keep_or_start(instant, fresh);
        chosen = advance(instant, fresh);
    }
    return chosen;
}

static uint32_t advance_pre(struct instant *instant, const uint8_t *pre, bool fresh)
{
    uint8_t *const cell = instant->memory + bytes_of_cell * instant->next_cell++;
    const uint32_t number = fresh ? starting_constant(pre) : read_number(cell + 1);
    write_cell(cell, 1, advance(instant, fresh));
    return number;
}

static uint32_t advance_fby(struct instant *instant, bool fresh)
{
    uint8_t *const cell = instant->memory + bytes_of_cell * instant->next_cell++;
    const bool starts = fresh || cell[0] == 0;
    const uint32_t left = advance(instant, fresh);
    const uint32_t number = starts ? left : read_number(cell + 1);
    write_cell(cell, 1, advance(instant, fresh));
    return number;
}

/* Stores the state whose body ran. */
static uint32_t advance_machine(struct instant *instant, bool fresh)
{
    uint8_t *const cell = instant->memory + bytes_of_cell * instant->next_cell;
    const unsigned state = take_state(instant, fresh);
    struct value condition = {0, false};
    uint32_t body = 0;
    for (unsigned operand = 0; operand < machine_operands; operand++) {
        const struct turn turn = turn_of(operand, state, condition, fresh);
        if (operand == machine_conditions && instant->machines != NULL)
            note_machine(instant, cell, condition.number != 0, fresh);
        if (!turn.runs)
            keep_or_start(instant, fresh);
        else if (operand < machine_conditions)
            condition = (struct value){advance(instant, turn.fresh), true};
        else
            body = advance(instant, turn.fresh);
    }
    write_cell(cell, 1, condition.number != 0 ? 1 - state : state);
    return body;
}

/* Advances the expression that comes next, answers its value, which is known, and moves behind it. */
static uint32_t advance(struct instant *instant, bool fresh)
{
    const uint8_t *const expression = instant->next;
    const unsigned kind = expression[0];
    if (shapes[kind].operands == 0)
        return value_of(instant, fresh).number;
    instant->next = expression + 1 + shapes[kind].body;
    switch (kind) {
    case kind_not:
    case kind_negate:
        return result_of_one(kind, advance(instant, fresh));
    case kind_if:
        return advance_if(instant, fresh);
    case kind_present:
        return advance_present(instant, fresh);
    case kind_reset:
        return advance(instant, advance(instant, fresh) != 0 || fresh);
    case kind_boolean_pre:
    case kind_number_pre:
        return advance_pre(instant, expression, fresh);
    case kind_fby:
        return advance_fby(instant, fresh);
    case kind_machine:
        return advance_machine(instant, fresh);
    default:
        return advance_two_operands(instant, kind, fresh);
    }
}

void store_cells(struct instant *instant)
{
    const struct layout *const layout = instant->layout;
    for (unsigned wire = 0; wire < layout->wires; wire++) {
        move_to_wire(instant, wire);
        (void)advance(instant, false);
    }
    for (unsigned wire = 0; wire < layout->wires; wire++) {
        if (is_kept(layout->wire_types[wire]))
            write_cell(instant->memory + bytes_of_cell * kept_cell(layout, wire), 1, instant->wires[wire].number);
    }
}
