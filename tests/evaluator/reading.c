/* The evaluator's check: reads a sheet from the first byte on, refuses with 1 to 11, and notes where everything lies.
 * Rests on nothing but the table of kinds, which stands here.
 */
#include "evaluator/internal.h"

/* Wires, inputs and lasts stand here with the type asked: their own type is looked up in the header. */
const struct shape shapes[] = {
    [kind_boolean] = {1, 0, type_boolean, {0}},
    [kind_number] = {4, 0, type_number, {0}},
    [kind_wire] = {1, 0, type_asked, {0}},
    [kind_input] = {1, 0, type_asked, {0}},
    [kind_not] = {0, 1, type_boolean, {type_boolean}},
    [kind_negate] = {0, 1, type_number, {type_number}},
    [kind_and] = {0, 2, type_boolean, {type_boolean, type_boolean}},
    [kind_or] = {0, 2, type_boolean, {type_boolean, type_boolean}},
    [kind_add] = {0, 2, type_number, {type_number, type_number}},
    [kind_subtract] = {0, 2, type_number, {type_number, type_number}},
    [kind_less] = {0, 2, type_boolean, {type_number, type_number}},
    [kind_equal] = {0, 2, type_boolean, {type_number, type_number}},
    [kind_if] = {0, 3, type_asked, {type_boolean, type_asked, type_asked}},
    [kind_present] = {0, 3, type_asked, {type_boolean, type_asked, type_asked}},
    [kind_reset] = {0, 2, type_asked, {type_boolean, type_asked}},
    [kind_boolean_pre] = {1, 1, type_boolean, {type_boolean}},
    [kind_number_pre] = {4, 1, type_number, {type_number}},
    [kind_fby] = {0, 2, type_asked, {type_asked, type_asked}},
    [kind_last] = {1, 0, type_asked, {0}},
    [kind_machine] = {0, 4, type_asked, {type_boolean, type_boolean, type_asked, type_asked}}
};

static uint32_t read_count(struct layout *layout, unsigned least, unsigned most, unsigned *count)
{
    if (layout->place >= layout->length)
        return refusal(2, layout->length);
    *count = layout->sheet[layout->place];
    if (*count < least || *count > most)
        return refusal(3, layout->place);
    layout->place++;
    return 0;
}

/* The cell of a kept wire counts as present from its type byte on, and so from the start of the expressions. */
static uint32_t read_types(struct layout *layout, unsigned count, unsigned highest, const uint8_t **types)
{
    size_t place = layout->place;
    *types = layout->sheet + place;
    for (unsigned index = 0; index < count; index++, place++) {
        if (place >= layout->length)
            return refusal(2, layout->length);
        if (layout->sheet[place] > highest)
            return refusal(4, place);
        layout->cells += is_kept(layout->sheet[place]);
    }
    layout->place = place;
    return 0;
}

static uint32_t read_outputs(struct layout *layout)
{
    unsigned lowest_allowed = 0;
    layout->output_wires = layout->sheet + layout->place;
    for (unsigned index = 0; index < layout->outputs; index++) {
        if (layout->place >= layout->length)
            return refusal(2, layout->length);
        const unsigned wire = layout->sheet[layout->place];
        if (wire >= layout->wires || wire < lowest_allowed)
            return refusal(5, layout->place);
        lowest_allowed = wire + 1;
        layout->place++;
    }
    return 0;
}

static uint32_t read_header(struct layout *layout)
{
    uint32_t refused = read_count(layout, 0, most_inputs, &layout->inputs);
    if (refused == 0)
        refused = read_types(layout, layout->inputs, highest_input_type, &layout->input_types);
    if (refused == 0)
        refused = read_count(layout, 1, most_wires, &layout->wires);
    if (refused == 0)
        refused = read_types(layout, layout->wires, highest_wire_type, &layout->wire_types);
    if (refused == 0)
        refused = read_count(layout, 1, most_outputs, &layout->outputs);
    if (refused == 0)
        refused = read_outputs(layout);
    return refused;
}

/* Refusals 7 and 9 of one expression whose kind byte and body are known to be there. */
static uint32_t check_body(const struct layout *layout, size_t place, unsigned asked)
{
    const unsigned kind = layout->sheet[place];
    const unsigned body = shapes[kind].body == 1 ? layout->sheet[place + 1] : 0;
    unsigned type = shapes[kind].type;

    if (kind == kind_wire) {
        if (body >= layout->wires)
            return refusal(7, place);
        type = plain_type(layout->wire_types[body]);
    } else if (kind == kind_input) {
        if (body >= layout->inputs)
            return refusal(7, place);
        type = layout->input_types[body];
    } else if (kind == kind_last) {
        if (body >= layout->wires || !is_kept(layout->wire_types[body]))
            return refusal(7, place);
        type = plain_type(layout->wire_types[body]);
    } else if (body > 1) {
        return refusal(7, place);
    }
    return type == type_asked || type == asked ? 0 : refusal(9, place);
}

/* Refusals 2, 6, 8 and 10 of the expression that comes next: its kind byte and whether its body is there. */
static uint32_t check_kind(const struct layout *layout, unsigned level)
{
    const size_t place = layout->place;
    if (place >= layout->length)
        return refusal(2, layout->length);
    const unsigned kind = layout->sheet[place];
    if (kind >= kinds)
        return refusal(6, place);
    if (level > deepest_level)
        return refusal(8, place);
    if (owns_cell(kind) && layout->cells == most_cells)
        return refusal(10, place);
    return layout->length - place - 1 < shapes[kind].body ? refusal(2, layout->length) : 0;
}

static void number_cell(struct layout *layout, size_t place, unsigned type)
{
    layout->cell_place[layout->next_cell] = (uint16_t)place;
    layout->cell_type[layout->next_cell] = (uint8_t)type;
    layout->next_cell++;
}

/* Notes what the expression that comes next, kind byte and body, tells, and moves behind its body. "Delayed" says that the place is
 * under a pre's operand or an fby's right operand, where naming a wire is no reading within the instant. */
static void note_expression(struct layout *layout, unsigned wire, unsigned asked, bool delayed)
{
    const size_t place = layout->place;
    const unsigned kind = layout->sheet[place];
    layout->place = place + 1 + shapes[kind].body;
    if (kind == kind_wire && !delayed)
        layout->wire_reads[wire] |= UINT64_C(1) << layout->sheet[place + 1];
    if (owns_cell(kind)) {
        layout->cells++;
        number_cell(layout, place, kind == kind_machine ? type_boolean : asked);
    }
}

static uint32_t read_expression(struct layout *layout, unsigned wire, unsigned asked, unsigned level, bool delayed)
{
    uint32_t refused = check_kind(layout, level);
    if (refused == 0)
        refused = check_body(layout, layout->place, asked);
    if (refused != 0)
        return refused;
    const unsigned kind = layout->sheet[layout->place];
    const struct shape *const shape = &shapes[kind];
    note_expression(layout, wire, asked, delayed);
    for (unsigned index = 0; index < shape->operands && refused == 0; index++) {
        const unsigned type = shape->operand_types[index];
        const bool operand_delayed = delayed || (delays_operand(kind) && index + 1 == shape->operands);
        refused = read_expression(layout, wire, type == type_asked ? asked : type, level + 1, operand_delayed);
    }
    return refused;
}

/* Notes where the expression of a wire begins; the cell of a kept wire gets its number before those of the expression. */
static void note_wire(struct layout *layout, unsigned wire)
{
    if (is_kept(layout->wire_types[wire]))
        number_cell(layout, 0, plain_type(layout->wire_types[wire]));
    layout->wire_place[wire] = (uint16_t)layout->place;
    layout->wire_first_cell[wire] = (uint8_t)layout->next_cell;
    layout->wire_reads[wire] = 0;
}

uint32_t read_sheet(struct layout *layout, const uint8_t *sheet, size_t sheet_length)
{
    if (sheet_length == 0 || sheet_length > longest_sheet)
        return refusal(1, 0);
    layout->sheet = sheet;
    layout->length = sheet_length;
    layout->place = 0;
    layout->cells = 0;
    layout->next_cell = 0;
    uint32_t refused = read_header(layout);
    if (refused != 0)
        return refused;
    for (unsigned wire = 0; wire < layout->wires; wire++) {
        note_wire(layout, wire);
        refused = read_expression(layout, wire, plain_type(layout->wire_types[wire]), 1, false);
        if (refused != 0)
            return refused;
    }
    return layout->place < sheet_length ? refusal(11, layout->place) : 0;
}
