/* Two sheets into one, document 02, K10: both are taken apart into trees in which an expression points at the wire or input that it names,
 * the inputs, wires and outputs of both are put into one list each, and the joined sheet is written anew from these. So no number is
 * shifted: a wire or input has the number of its place in the joined list. Rests on reading.c for the check of each sheet and for the
 * table of kinds.
 */
#include "common/calls.h"
#include "evaluator/internal.h"

#include <string.h>

/* A wire or an input: its type byte, and its place in the list of the joined sheet. */
struct thing {
    uint8_t type_byte;
    uint8_t number;
};

/* An expression that names a wire or an input has that; others may have a constant. */
struct expression {
    uint8_t kind;
    const uint8_t *constant;
    const struct thing *named;
    const struct expression *operands[machine_operands]; /* no kind has more */
};

/* A sheet taken apart. */
struct parts {
    struct layout layout;
    struct thing inputs[most_inputs];
    struct thing wires[most_wires];
    const struct expression *wire_expressions[most_wires];
    unsigned expressions;
    struct expression expression[longest_sheet];
};

/* The lists of both, and the sheet that is written from them. */
struct joined {
    unsigned inputs;
    unsigned wires;
    unsigned outputs;
    unsigned cells;
    struct thing *input[2 * most_inputs];
    struct thing *wire[2 * most_wires];
    const struct thing *output[2 * most_outputs];
    const struct expression *wire_expression[2 * most_wires];
    size_t length;
    uint8_t sheet[2 * longest_sheet];
};

/* ---- Taking apart ---- */

static const struct thing *thing_named(const struct parts *parts, unsigned kind, const uint8_t *body)
{
    if (kind == kind_input)
        return &parts->inputs[body[0]];
    return kind == kind_wire || kind == kind_last ? &parts->wires[body[0]] : NULL;
}

/* Takes the expression at this byte apart and moves behind it. */
static const struct expression *take_expression(struct parts *parts, const uint8_t **byte)
{
    struct expression *const expression = &parts->expression[parts->expressions++];
    const unsigned kind = **byte;
    expression->kind = (uint8_t)kind;
    expression->constant = *byte + 1;
    expression->named = thing_named(parts, kind, *byte + 1);
    *byte += 1 + shapes[kind].body;
    for (unsigned operand = 0; operand < shapes[kind].operands; operand++)
        expression->operands[operand] = take_expression(parts, byte);
    return expression;
}

/* Refusals 1 to 11. */
static uint32_t take_sheet(struct parts *parts, const uint8_t *sheet, size_t sheet_length)
{
    const struct layout *const layout = &parts->layout;
    const uint32_t refused = read_sheet(&parts->layout, sheet, sheet_length);
    if (refused != 0)
        return refused;
    for (unsigned input = 0; input < layout->inputs; input++)
        parts->inputs[input].type_byte = layout->input_types[input];
    for (unsigned wire = 0; wire < layout->wires; wire++)
        parts->wires[wire].type_byte = layout->wire_types[wire];
    parts->expressions = 0;
    for (unsigned wire = 0; wire < layout->wires; wire++) {
        const uint8_t *byte = sheet + layout->wire_place[wire];
        parts->wire_expressions[wire] = take_expression(parts, &byte);
    }
    return 0;
}

/* ---- Putting together ---- */

/* Puts a sheet behind what is there; each of its things gets the number that it has in its list then. */
static void add_sheet(struct joined *joined, struct parts *parts)
{
    const struct layout *const layout = &parts->layout;
    for (unsigned input = 0; input < layout->inputs; input++) {
        parts->inputs[input].number = (uint8_t)joined->inputs;
        joined->input[joined->inputs++] = &parts->inputs[input];
    }
    for (unsigned wire = 0; wire < layout->wires; wire++) {
        parts->wires[wire].number = (uint8_t)joined->wires;
        joined->wire_expression[joined->wires] = parts->wire_expressions[wire];
        joined->wire[joined->wires++] = &parts->wires[wire];
    }
    for (unsigned output = 0; output < layout->outputs; output++)
        joined->output[joined->outputs++] = &parts->wires[layout->output_wires[output]];
}

static void write_byte(struct joined *joined, unsigned byte)
{
    joined->sheet[joined->length++] = (uint8_t)byte;
}

static void write_expression(struct joined *joined, const struct expression *expression)
{
    const unsigned kind = expression->kind;
    write_byte(joined, kind);
    joined->cells += owns_cell(kind);
    if (expression->named != NULL) {
        write_byte(joined, expression->named->number);
    } else {
        for (unsigned index = 0; index < shapes[kind].body; index++)
            write_byte(joined, expression->constant[index]);
    }
    for (unsigned operand = 0; operand < shapes[kind].operands; operand++)
        write_expression(joined, expression->operands[operand]);
}

static void write_sheet(struct joined *joined)
{
    write_byte(joined, joined->inputs);
    for (unsigned input = 0; input < joined->inputs; input++)
        write_byte(joined, joined->input[input]->type_byte);
    write_byte(joined, joined->wires);
    for (unsigned wire = 0; wire < joined->wires; wire++) {
        write_byte(joined, joined->wire[wire]->type_byte);
        joined->cells += is_kept(joined->wire[wire]->type_byte);
    }
    write_byte(joined, joined->outputs);
    for (unsigned output = 0; output < joined->outputs; output++)
        write_byte(joined, joined->output[output]->number);
    for (unsigned wire = 0; wire < joined->wires; wire++)
        write_expression(joined, joined->wire_expression[wire]);
}

/* ---- The join ---- */

/* Refusals 23 and 16, of the sheet as it is written. */
static uint32_t check_joined(const struct joined *joined, size_t lent)
{
    if (joined->inputs > most_inputs || joined->wires > most_wires || joined->outputs > most_outputs || joined->cells > most_cells ||
        joined->length > longest_sheet)
        return refusal(23, 0);
    return lent != joined->length ? refusal(16, 0) : 0;
}

uint32_t evaluator_join(const uint8_t *first, size_t first_length, const uint8_t *second, size_t second_length, uint8_t *bytes,
                        size_t bytes_length)
{
    struct parts parts[2];
    struct joined joined;
    uint32_t refused = take_sheet(&parts[0], first, first_length);
    if (refused != 0)
        return refused;
    refused = take_sheet(&parts[1], second, second_length);
    if (refused != 0)
        return refused + OF_SECOND;
    joined.inputs = joined.wires = joined.outputs = joined.cells = 0;
    joined.length = 0;
    add_sheet(&joined, &parts[0]);
    add_sheet(&joined, &parts[1]);
    write_sheet(&joined);
    refused = check_joined(&joined, bytes_length);
    if (refused == 0)
        memcpy(bytes, joined.sheet, joined.length);
    return refused;
}
