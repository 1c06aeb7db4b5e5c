/* Memories, rows and schedules that fit a sheet. Rests on sheets.c for what the generator knows of the sheet. */
#include "generator/rows.h"

void fill_input(struct random *random, const uint8_t *types, unsigned inputs, struct buffer *input)
{
    input->length = 0;
    for (unsigned index = 0; index < inputs; index++)
        append_number(input, random_value(random, types[index]));
}

void fill_memory(struct random *random, const struct generator *generator, struct buffer *memory)
{
    memory->length = 0;
    for (unsigned cell = 0; cell < generator->cells; cell++) {
        const bool started = generator->cell_kind[cell] != 17 || percent(random, 70);
        append(memory, started);
        append_number(memory, started ? random_value(random, generator->cell_type[cell]) : 0);
    }
}

bool fill_schedule(struct random *random, const struct generator *generator, struct buffer *schedule)
{
    uint8_t waiting[most_wires];
    unsigned count = generator->plan.wires;
    uint64_t listed = 0;
    shuffle(random, waiting, count);
    schedule->length = 0;
    bool found = true;
    while (found && count != 0) {
        found = false;
        unsigned kept = 0;
        for (unsigned index = 0; index < count; index++) {
            const unsigned wire = waiting[index];
            /* Leaving out a ready wire now and then mixes the levels of the order. */
            if ((generator->reads[wire] & ~listed) == 0 && (!found || percent(random, 60))) {
                append(schedule, wire);
                listed |= UINT64_C(1) << wire;
                found = true;
            } else {
                waiting[kept++] = (uint8_t)wire;
            }
        }
        count = kept;
    }
    for (unsigned index = 0; index < count; index++)
        append(schedule, waiting[index]);
    return count == 0;
}

void fill_with_permutation(struct random *random, unsigned wires, struct buffer *schedule)
{
    schedule->length = wires;
    shuffle(random, schedule->bytes, wires);
}
