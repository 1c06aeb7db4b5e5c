/* The evaluator's calls but the maker and the tick: the checks of memory, rows and schedule, the rounds, the one pass along a schedule,
 * and what they write. Rests on reading.c for the sheet, on values.c for the wires, on waiting.c for those that loop and on storing.c for
 * the next memory.
 */
#include "evaluator/internal.h"

#include <string.h>

/* ---- Memory, rows and schedule ---- */

uint32_t check_memory(const struct layout *layout, const uint8_t *memory, size_t memory_length)
{
    if (memory_length != (size_t)bytes_of_cell * layout->cells)
        return refusal(12, 0);
    for (unsigned cell = 0; cell < layout->cells; cell++) {
        const uint8_t *const bytes = memory + bytes_of_cell * cell;
        const uint32_t number = read_number(bytes + 1);
        bool valid = false;
        if (bytes[0] == 0)
            valid = belongs_to_fby(layout, cell) && number == 0;
        else if (bytes[0] == 1)
            valid = layout->cell_type[cell] == type_number || number <= 1;
        if (!valid)
            return refusal(13, cell);
    }
    return 0;
}

uint32_t check_input(const struct layout *layout, const uint8_t *input, size_t input_length)
{
    if (input_length != (size_t)bytes_of_number * layout->inputs)
        return refusal(14, 0);
    for (unsigned index = 0; index < layout->inputs; index++) {
        if (layout->input_types[index] == type_boolean &&
            read_number(input + bytes_of_number * index) > 1)
            return refusal(15, index);
    }
    return 0;
}

static uint32_t check_rows(const struct layout *layout, const uint8_t *memory,
                           size_t memory_length, const uint8_t *input, size_t input_length,
                           size_t output_length)
{
    uint32_t refused = check_memory(layout, memory, memory_length);
    if (refused == 0)
        refused = check_input(layout, input, input_length);
    if (refused == 0 && output_length != (size_t)bytes_of_number * layout->outputs)
        refused = refusal(16, 0);
    return refused;
}

static uint32_t check_schedule(const struct layout *layout, const uint8_t *schedule,
                               size_t schedule_length)
{
    if (schedule_length != layout->wires)
        return refusal(17, 0);
    uint64_t named = 0;
    for (unsigned position = 0; position < layout->wires; position++) {
        const unsigned wire = schedule[position];
        if (wire >= layout->wires || (named >> wire & 1) != 0)
            return refusal(18, position);
        named |= UINT64_C(1) << wire;
    }
    uint64_t earlier = 0;
    for (unsigned position = 0; position < layout->wires; position++) {
        const unsigned wire = schedule[position];
        if ((layout->wire_reads[wire] & ~earlier) != 0)
            return refusal(19, position);
        earlier |= UINT64_C(1) << wire;
    }
    return 0;
}

/* ---- The instants ---- */

static struct value value_of_wire(struct instant *instant, unsigned wire)
{
    move_to_wire(instant, wire);
    return value_of(instant, false);
}

static void make_unknown(struct value *values, unsigned wires)
{
    for (unsigned wire = 0; wire < wires; wire++)
        values[wire] = (struct value){0, false};
}

/* One round from the previous round's values; answers whether it changed anything. */
static bool work_out_round(struct instant *instant, const struct value *previous, struct value *current)
{
    bool changed = false;
    instant->wires = previous;
    for (unsigned wire = 0; wire < instant->layout->wires; wire++) {
        current[wire] = value_of_wire(instant, wire);
        if (current[wire].known != previous[wire].known || current[wire].number != previous[wire].number)
            changed = true;
    }
    return changed;
}

/* The rounds until one changes nothing; answers how many they are. The instant's wires are then the finished ones, one of the two rows. */
static uint32_t work_out_rounds(struct instant *instant, struct value values[2][most_wires])
{
    uint32_t rounds = 0;
    bool changed = true;
    make_unknown(values[0], instant->layout->wires);
    while (changed) {
        changed = work_out_round(instant, values[rounds % 2], values[(rounds + 1) % 2]);
        rounds++;
    }
    instant->wires = values[rounds % 2];
    return rounds;
}

/* The count of the wires where all are known. */
static unsigned lowest_unknown(const struct instant *instant)
{
    unsigned wire = 0;
    while (wire < instant->layout->wires && instant->wires[wire].known)
        wire++;
    return wire;
}

/* Writes next memory and outputs from the finished wires, which are the instant's. With a wire unknown nothing is written and refusal 20 is
 * the answer, at the lowest wire that waits for itself. */
static uint32_t finish_instant(struct instant *instant, uint8_t *output)
{
    const struct layout *const layout = instant->layout;
    const struct value *const finished = instant->wires;
    if (lowest_unknown(instant) < layout->wires) {
        uint64_t waits[most_wires];
        find_waits(instant, waits);
        return refusal(20, lowest_on_loop(waits, layout->wires));
    }
    store_cells(instant);
    for (unsigned index = 0; index < layout->outputs; index++)
        write_number(output + bytes_of_number * index, finished[layout->output_wires[index]].number);
    return 0;
}

/* ---- The calls ---- */

uint32_t evaluator_check(const uint8_t *sheet, size_t sheet_length)
{
    struct layout layout;
    const uint32_t refused = read_sheet(&layout, sheet, sheet_length);
    return refused != 0 ? refused : layout.cells;
}

uint32_t evaluator_start(const uint8_t *sheet, size_t sheet_length, uint8_t *memory, size_t memory_length)
{
    struct layout layout;
    const uint32_t refused = read_sheet(&layout, sheet, sheet_length);
    if (refused != 0)
        return refused;
    if (memory_length != (size_t)bytes_of_cell * layout.cells)
        return refusal(12, 0);
    for (unsigned cell = 0; cell < layout.cells; cell++)
        start_cell(&layout, cell, memory);
    return 0;
}

uint32_t evaluator_rounds(const uint8_t *sheet, size_t sheet_length, uint8_t *memory, size_t memory_length,
                          const uint8_t *input, size_t input_length, uint8_t *output, size_t output_length)
{
    struct layout layout;
    uint32_t refused = read_sheet(&layout, sheet, sheet_length);
    if (refused == 0)
        refused = check_rows(&layout, memory, memory_length, input, input_length, output_length);
    if (refused != 0)
        return refused;

    struct value values[2][most_wires];
    struct instant instant = {.layout = &layout, .input = input, .memory = memory};
    const uint32_t rounds = work_out_rounds(&instant, values);
    refused = finish_instant(&instant, output);
    return refused != 0 ? refused : rounds;
}

/* An instant in rounds on a copy of the memory, to be asked what else is to be said of it. */
struct trial {
    struct layout layout;
    struct value values[2][most_wires];
    uint8_t memory[bytes_of_cell * most_cells];
    struct instant instant;
};

static void make_trial(struct trial *trial, const uint8_t *sheet, size_t sheet_length, const uint8_t *memory, const uint8_t *input)
{
    (void)read_sheet(&trial->layout, sheet, sheet_length);
    memcpy(trial->memory, memory, (size_t)bytes_of_cell * trial->layout.cells);
    trial->instant = (struct instant){.layout = &trial->layout, .input = input, .memory = trial->memory};
    (void)work_out_rounds(&trial->instant, trial->values);
}

struct stuck evaluator_stuck(const uint8_t *sheet, size_t sheet_length, const uint8_t *memory, const uint8_t *input)
{
    struct trial trial;
    uint64_t waits[most_wires];
    uint64_t reads[most_wires];
    make_trial(&trial, sheet, sheet_length, memory, input);
    const unsigned wires = trial.layout.wires;
    find_waits(&trial.instant, waits);
    for (unsigned wire = 0; wire < wires; wire++)
        reads[wire] = trial.instant.wires[wire].known ? 0 : trial.layout.wire_reads[wire];
    const unsigned wire = lowest_on_loop(waits, wires);
    return (struct stuck){.lowest_unknown = lowest_unknown(&trial.instant),
                          .by_reads = lowest_on_loop(reads, wires),
                          .waits_directly = (waits[wire] >> wire & 1) != 0};
}

struct lasts evaluator_lasts(const uint8_t *sheet, size_t sheet_length, const uint8_t *memory, const uint8_t *input)
{
    struct trial trial;
    make_trial(&trial, sheet, sheet_length, memory, input);
    /* What stands under a pre or on the right of an fby is worked out by the storing alone. */
    store_cells(&trial.instant);
    return trial.instant.lasts;
}

struct machines evaluator_machines(const uint8_t *sheet, size_t sheet_length, const uint8_t *memory, const uint8_t *input)
{
    struct trial trial;
    struct machines machines = {0};
    make_trial(&trial, sheet, sheet_length, memory, input);
    trial.instant.machines = &machines;
    store_cells(&trial.instant);
    memcpy(trial.memory, memory, (size_t)bytes_of_cell * trial.layout.cells);
    trial.instant.no_body_rests = true;
    (void)work_out_rounds(&trial.instant, trial.values);
    machines.accepted_by_rest = lowest_unknown(&trial.instant) < trial.layout.wires;
    return machines;
}

/* The instant on a copy of the memory. One longer than any sheet has cells for is refused by its length alone. */
uint32_t evaluator_preview(const uint8_t *sheet, size_t sheet_length, const uint8_t *memory, size_t memory_length,
                           const uint8_t *input, size_t input_length, uint8_t *output, size_t output_length)
{
    uint8_t copy[bytes_of_cell * most_cells];
    memcpy(copy, memory, memory_length < sizeof copy ? memory_length : sizeof copy);
    return evaluator_rounds(sheet, sheet_length, copy, memory_length, input, input_length, output, output_length);
}

uint32_t evaluator_scheduled(const uint8_t *sheet, size_t sheet_length, uint8_t *memory, size_t memory_length,
                             const uint8_t *input, size_t input_length, uint8_t *output, size_t output_length,
                             const uint8_t *schedule, size_t schedule_length)
{
    struct layout layout;
    uint32_t refused = read_sheet(&layout, sheet, sheet_length);
    if (refused == 0)
        refused = check_rows(&layout, memory, memory_length, input, input_length, output_length);
    if (refused == 0)
        refused = check_schedule(&layout, schedule, schedule_length);
    if (refused != 0)
        return refused;

    struct value values[most_wires];
    struct instant instant = {.layout = &layout, .input = input, .memory = memory, .wires = values};
    make_unknown(values, layout.wires);
    for (unsigned position = 0; position < layout.wires; position++) {
        const unsigned wire = schedule[position];
        values[wire] = value_of_wire(&instant, wire);
    }
    return finish_instant(&instant, output);
}
