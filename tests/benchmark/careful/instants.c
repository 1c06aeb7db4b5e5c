/* The calls of careful C but the maker and the tick: the check of a schedule, and the instants. Rests on reading.c, values.c, rounds.c,
 * waiting.c and storing.c.
 */
#include "benchmark/careful/careful.h"
#include "benchmark/careful/internal.h"

/* ---- The schedule ---- */

static uint32_t check_schedule(const struct program *program, const uint8_t *schedule, size_t schedule_length)
{
    if (schedule_length != program->wires)
        return refusal(17, 0);
    uint64_t earlier = 0;
    unsigned out_of_order = most_wires;
    for (unsigned position = 0; position < program->wires; position++) {
        const unsigned wire = schedule[position];
        if (wire >= program->wires || (earlier >> wire & 1) != 0)
            return refusal(18, position);
        if ((program->wire_reads[wire] & ~earlier) != 0 && out_of_order == most_wires)
            out_of_order = position;
        earlier |= UINT64_C(1) << wire;
    }
    return out_of_order != most_wires ? refusal(19, out_of_order) : 0;
}

/* ---- The instants ---- */

void begin_instant(struct instant *instant, struct program *program, const uint8_t *memory)
{
    link_nodes(program);
    instant->program = program;
    instant->memory = memory;
    instant->known = 0;
}

uint32_t prepare(struct program *program, struct instant *instant, const uint8_t *sheet, size_t sheet_length, const uint8_t *memory,
                 size_t memory_length, const uint8_t *input, size_t input_length, size_t output_length)
{
    uint32_t refused = read_program(program, sheet, sheet_length);
    if (refused == 0)
        refused = memory_length == (size_t)bytes_of_cell * program->cells ? check_cells(program, memory) : refusal(12, 0);
    if (refused == 0 && input_length != (size_t)bytes_of_number * program->inputs)
        refused = refusal(14, 0);
    if (refused == 0)
        refused = take_inputs(program, input, instant->inputs);
    if (refused == 0 && output_length != (size_t)bytes_of_number * program->outputs)
        refused = refusal(16, 0);
    if (refused == 0)
        begin_instant(instant, program, memory);
    return refused;
}

/* Writes the output row and, where there is one, the next memory; every wire is known. */
static void finish(struct instant *instant, uint8_t *next_memory, uint8_t *output)
{
    const struct program *const program = instant->program;
    instant->next_memory = next_memory;
    if (next_memory != NULL)
        store_wires(instant);
    for (unsigned index = 0; index < program->outputs; index++)
        write_number(output + bytes_of_number * index, instant->wires[program->output_wires[index]]);
}

uint32_t make_rounds(struct instant *instant, uint8_t *next_memory, uint8_t *output)
{
    struct rounds rounds;
    begin_rounds(instant, &rounds);
    while (make_round(instant, &rounds))
        continue;
    if (rounds.unknown != 0)
        return refusal(20, lowest_waiting(instant, rounds.unknown));
    finish(instant, next_memory, output);
    return rounds.made;
}

/* The instant in rounds. Where there is no next memory, nothing is stored. */
static uint32_t in_rounds(const uint8_t *sheet, size_t sheet_length, const uint8_t *memory, size_t memory_length, const uint8_t *input,
                          size_t input_length, uint8_t *output, size_t output_length, uint8_t *next_memory)
{
    struct program program;
    struct instant instant;
    const uint32_t refused =
        prepare(&program, &instant, sheet, sheet_length, memory, memory_length, input, input_length, output_length);
    return refused != 0 ? refused : make_rounds(&instant, next_memory, output);
}

uint32_t careful_check(const uint8_t *sheet, size_t sheet_length)
{
    struct program program;
    const uint32_t refused = read_program(&program, sheet, sheet_length);
    return refused != 0 ? refused : program.cells;
}

uint32_t careful_start(const uint8_t *sheet, size_t sheet_length, uint8_t *memory, size_t memory_length)
{
    struct program program;
    const uint32_t refused = read_program(&program, sheet, sheet_length);
    if (refused != 0)
        return refused;
    if (memory_length != (size_t)bytes_of_cell * program.cells)
        return refusal(12, 0);
    start_cells(&program, memory, 0, program.cells);
    return 0;
}

uint32_t careful_preview(const uint8_t *sheet, size_t sheet_length, const uint8_t *memory, size_t memory_length,
                         const uint8_t *input, size_t input_length, uint8_t *output, size_t output_length)
{
    return in_rounds(sheet, sheet_length, memory, memory_length, input, input_length, output, output_length, NULL);
}

uint32_t careful_rounds(const uint8_t *sheet, size_t sheet_length, uint8_t *memory, size_t memory_length,
                        const uint8_t *input, size_t input_length, uint8_t *output, size_t output_length)
{
    return in_rounds(sheet, sheet_length, memory, memory_length, input, input_length, output, output_length, memory);
}

uint32_t careful_scheduled(const uint8_t *sheet, size_t sheet_length, uint8_t *memory, size_t memory_length,
                           const uint8_t *input, size_t input_length, uint8_t *output, size_t output_length,
                           const uint8_t *schedule, size_t schedule_length)
{
    struct program program;
    struct instant instant;
    uint32_t refused = prepare(&program, &instant, sheet, sheet_length, memory, memory_length, input, input_length, output_length);
    if (refused == 0)
        refused = check_schedule(&program, schedule, schedule_length);
    if (refused != 0)
        return refused;
    for (unsigned position = 0; position < program.wires; position++)
        instant.wires[schedule[position]] = number_of(&instant, program.wire_node[schedule[position]], false);
    finish(&instant, memory, output);
    return 0;
}
