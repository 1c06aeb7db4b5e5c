/* Machines with two states, document 02, K8: which operands run in an instant, and which of them are fresh. Rests on storing.c for what is
 * to be said of a machine besides.
 */
#include "evaluator/internal.h"

#include <string.h>

/* The cell holds the state whose body ran last. When the whole is fresh, state 0 is current whatever it holds. */
unsigned take_state(struct instant *instant, bool fresh)
{
    const uint8_t *const cell = instant->memory + bytes_of_cell * instant->next_cell++;
    return fresh ? 0 : read_number(cell + 1);
}

/* Only the current state's condition is asked. */
static struct turn turn_of_condition(unsigned of_state, unsigned state, bool fresh)
{
    return (struct turn){.runs = of_state == state, .fresh = fresh};
}

/* Where the condition holds, the other state is entered in this instant and its body is fresh; where it is unknown, no body runs. */
static struct turn turn_of_body(unsigned of_state, unsigned state, struct value condition, bool fresh)
{
    const bool leaves = condition.number != 0;
    return (struct turn){.runs = condition.known && leaves == (of_state != state), .fresh = fresh || leaves};
}

struct turn turn_of(unsigned operand, unsigned state, struct value condition, bool fresh)
{
    if (operand < machine_conditions)
        return turn_of_condition(operand, state, fresh);
    return turn_of_body(operand - machine_conditions, state, condition, fresh);
}

/* Moves behind the expression that comes next and answers whether its memory is away from its start. */
static bool pass_over_away(struct instant *instant)
{
    uint8_t start[bytes_of_cell * most_cells];
    unsigned cell = instant->next_cell;
    bool away = false;
    pass_over(instant);
    for (; cell < instant->next_cell; cell++) {
        const size_t place = (size_t)bytes_of_cell * cell;
        start_cell(instant->layout, cell, start);
        away = away || memcmp(start + place, instant->memory + place, bytes_of_cell) != 0;
    }
    return away;
}

void note_machine(const struct instant *instant, const uint8_t *cell, bool leaves, bool fresh)
{
    const unsigned state = read_number(cell + 1);
    struct machines *const machines = instant->machines;
    struct instant ahead = *instant;
    bool away[2];
    for (unsigned body = 0; body < 2; body++)
        away[body] = pass_over_away(&ahead);
    machines->run++;
    machines->entered += leaves;
    machines->entered_away += leaves && !fresh && away[1 - state];
    machines->left_away += leaves && !fresh && away[state];
    machines->fresh_in_state_1 += fresh && state == 1;
}
