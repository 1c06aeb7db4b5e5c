/* The join of careful C: both sheets are read for their counts alone, the bytes of each are copied part by part, and one pass over the
 * expressions of the second, from kind byte to kind byte, raises what they name. Rests on reading.c.
 */
#include "benchmark/careful/careful.h"
#include "benchmark/careful/internal.h"

#include <string.h>

/* What the reading of a sheet tells of it. */
struct counts {
    unsigned inputs;
    unsigned wires;
    unsigned outputs;
    unsigned cells;
};

static uint32_t count_sheet(struct counts *counts, const uint8_t *sheet, size_t length)
{
    struct program program;
    const uint32_t refused = read_program(&program, sheet, length);
    if (refused == 0)
        *counts = (struct counts){program.inputs, program.wires, program.outputs, program.cells};
    return refused;
}

/* Writes a count and behind it bytes of both sheets; answers where it ends. */
static uint8_t *put_both(uint8_t *to, const uint8_t *first, unsigned first_count, const uint8_t *second, unsigned second_count)
{
    *to++ = (uint8_t)(first_count + second_count);
    memcpy(to, first, first_count);
    memcpy(to + first_count, second, second_count);
    return to + first_count + second_count;
}

/* Raises the wires and inputs that expressions name. The byte behind a kind byte is always there: it is a body's, or the kind of an
 * operand, which is then raised by 0. */
static void raise_names(uint8_t *place, const uint8_t *end, unsigned wires, unsigned inputs)
{
    static const uint8_t body[kinds] = {
        [kind_boolean] = 1,     [kind_number] = 4,     [kind_wire] = 1, [kind_input] = 1,
        [kind_boolean_pre] = 1, [kind_number_pre] = 4, [kind_last] = 1,
    };
    uint8_t raise[kinds] = {0};
    raise[kind_wire] = raise[kind_last] = (uint8_t)wires;
    raise[kind_input] = (uint8_t)inputs;
    while (place < end) {
        const unsigned kind = *place;
        place[1] = (uint8_t)(place[1] + raise[kind]);
        place += 1 + body[kind];
    }
}

/* All that the two sheets have is known to fit. */
static void write_joined(uint8_t *joined, const uint8_t *first, size_t first_length, const struct counts *one, const uint8_t *second,
                         size_t second_length, const struct counts *other)
{
    const uint8_t *const first_outputs = first + 2 + one->inputs + one->wires;
    const uint8_t *const second_outputs = second + 2 + other->inputs + other->wires;
    const size_t first_rest = (size_t)(first + first_length - first_outputs) - 1 - one->outputs;
    const size_t second_rest = (size_t)(second + second_length - second_outputs) - 1 - other->outputs;
    uint8_t *to = put_both(joined, first + 1, one->inputs, second + 1, other->inputs);
    to = put_both(to, first + 2 + one->inputs, one->wires, second + 2 + other->inputs, other->wires);
    to = put_both(to, first_outputs + 1, one->outputs, second_outputs + 1, other->outputs);
    for (unsigned output = 1; output <= other->outputs; output++)
        to[-(int)output] = (uint8_t)(to[-(int)output] + one->wires);
    memcpy(to, first_outputs + 1 + one->outputs, first_rest);
    memcpy(to + first_rest, second_outputs + 1 + other->outputs, second_rest);
    raise_names(to + first_rest, to + first_rest + second_rest, one->wires, one->inputs);
}

uint32_t careful_join(const uint8_t *first, size_t first_length, const uint8_t *second, size_t second_length, uint8_t *joined,
                      size_t joined_length)
{
    struct counts one, other;
    uint32_t refused = count_sheet(&one, first, first_length);
    if (refused != 0)
        return refused;
    refused = count_sheet(&other, second, second_length);
    if (refused != 0)
        return refused + OF_SECOND;
    const size_t length = first_length + second_length - 3;
    if (one.inputs + other.inputs > most_inputs || one.wires + other.wires > most_wires || one.outputs + other.outputs > most_outputs ||
        one.cells + other.cells > most_cells || length > longest_sheet)
        return refusal(23, 0);
    if (joined_length != length)
        return refusal(16, 0);
    write_joined(joined, first, first_length, &one, second, second_length, &other);
    return 0;
}
