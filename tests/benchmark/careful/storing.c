/* The storing of careful C: only expressions that hold cells are gone through, and only numbers that are stored or chosen by are worked
 * out. Rests on values.c.
 */
#include "benchmark/careful/internal.h"

static void write_cell(uint8_t *cell, uint8_t mark, uint32_t number)
{
    cell[0] = mark;
    write_number(cell + 1, number);
}

void start_cells(const struct program *program, uint8_t *memory, unsigned first, unsigned end)
{
    for (unsigned cell = first; cell < end; cell++) {
        const struct node *const owner = program->cell_node[cell];
        /* Behind the pres come the fby, a machine, and what owns the cells of kept wires. */
        write_cell(memory + bytes_of_cell * cell, owner->kind != kind_fby, owner->kind <= kind_number_pre ? owner->is.number : 0);
    }
}

static void store(const struct instant *instant, const struct node *node, bool fresh);

static void store_where_cells(const struct instant *instant, const struct node *node, bool fresh)
{
    if (node->first_cell != node->end_cell)
        store(instant, node, fresh);
}

static void store_not_run(const struct instant *instant, const struct node *node, bool fresh)
{
    if (fresh)
        start_cells(instant->program, instant->next_memory, node->first_cell, node->end_cell);
}

static void store_present(const struct instant *instant, const struct node *node, bool fresh)
{
    const bool chosen = number_of(instant, node + 1, fresh) != 0;
    store_where_cells(instant, node + 1, fresh);
    store_where_cells(instant, chosen ? second_of(node) : third_of(node), fresh);
    store_not_run(instant, chosen ? third_of(node) : second_of(node), fresh);
}

static void store_reset(const struct instant *instant, const struct node *node, bool fresh)
{
    const bool fires = number_of(instant, node + 1, fresh) != 0;
    store_where_cells(instant, node + 1, fresh);
    store_where_cells(instant, second_of(node), fresh || fires);
}

static void store_machine(const struct instant *instant, const struct node *node, bool fresh)
{
    const struct program *const program = instant->program;
    const bool second = second_state(instant, node, fresh);
    const bool leaves = number_of(instant, condition_of(node, second), fresh) != 0;
    const bool run = second != leaves;
    store_where_cells(instant, condition_of(node, second), fresh);
    store_not_run(instant, condition_of(node, !second), fresh);
    store_where_cells(instant, body_of(program, node, run), fresh || leaves);
    store_not_run(instant, body_of(program, node, !run), fresh);
    write_cell(instant->next_memory + bytes_of_cell * node->first_cell, 1, run);
}

static void store_own_cell(const struct instant *instant, const struct node *node, bool fresh)
{
    const struct node *const stored = node->kind == kind_fby ? second_of(node) : node + 1;
    const uint32_t number = number_of(instant, stored, fresh);
    store_where_cells(instant, node + 1, fresh);
    if (node->kind == kind_fby)
        store_where_cells(instant, stored, fresh);
    write_cell(instant->next_memory + bytes_of_cell * node->first_cell, 1, number);
}

/* Stores the cells of an expression under finished wires. A number is always taken before the cells that it rests on are stored. */
static void store(const struct instant *instant, const struct node *node, bool fresh)
{
    switch (node->kind) {
    case kind_present:
        store_present(instant, node, fresh);
        return;
    case kind_reset:
        store_reset(instant, node, fresh);
        return;
    case kind_machine:
        store_machine(instant, node, fresh);
        return;
    case kind_boolean_pre:
    case kind_number_pre:
    case kind_fby:
        store_own_cell(instant, node, fresh);
        return;
    default:
        store_where_cells(instant, node + 1, fresh);
        if (node->kind > kind_negate)
            store_where_cells(instant, second_of(node), fresh);
        if (node->kind == kind_if)
            store_where_cells(instant, third_of(node), fresh);
    }
}

/* The kept cells come last, since any expression may rest on them. */
void store_wires(const struct instant *instant)
{
    const struct program *const program = instant->program;
    for (unsigned wire = 0; wire < program->wires; wire++)
        store_where_cells(instant, program->wire_node[wire], false);
    for (uint64_t left = program->kept; left != 0; left &= left - 1)
        write_cell(instant->next_memory + program->kept_place[lowest_of(left)], 1, instant->wires[lowest_of(left)]);
}
