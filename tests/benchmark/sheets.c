/* A call with a sheet's buffers, and the start of its memory. Rests on the table of calls. */
#include "benchmark/sheets.h"

uint32_t call_of(const struct implementation *implementation, enum call call, struct sheet *sheet)
{
    const struct arguments arguments = {
        .of = {
            [role_sheet] = {sheet->bytes, sheet->length},
            [role_memory] = {sheet->memory, sheet->memory_length},
            [role_input] = {sheet->input, sheet->input_length},
            [role_output] = {sheet->output, sheet->output_length},
            [role_schedule] = {sheet->schedule, sheet->wires},
        },
    };
    return run(implementation, call, &arguments);
}

void start_group(struct group *group)
{
    for (unsigned index = 0; index < group->count; index++) {
        struct sheet *const sheet = &group->sheets[index];
        const uint32_t cells = call_of(&library, call_check, sheet);
        if (sheet->memory_length == 0 && cells < first_refusal) {
            sheet->memory_length = cells * NUTHATCHBED_CELL_BYTES;
            (void)call_of(&library, call_start, sheet);
        }
    }
}
