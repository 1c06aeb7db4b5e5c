/* The irregular sheets of the benchmark: random ones, from fixed seeds, in which what comes next cannot be foreseen. They pass the
 * check, and their instants are accepted in rounds and along a schedule. Rests on the generator of the comparison.
 */
#include "benchmark/sheets.h"

#include "generator/rows.h"
#include "generator/sheets.h"

#include <string.h>

/* Wires near the most, cells up to the most and spread over the sheet, wires that read only wires of lower rank. */
static void plan_irregular(struct random *random, struct plan *plan, unsigned length)
{
    *plan = (struct plan){
        .inputs = 8,
        .wires = between(random, 60, most_wires),
        .outputs = most_outputs,
        .deepest = between(random, 8, deepest_level),
        .cells_wanted = most_cells,
        .cell_share = 36000 / length, /* so that the last wires have cells too */
        .leaf_share = between(random, 5, 20),
        .wire_share = 60,
        .wire_bytes = between(random, length / 128, length / 64),
        .sheet_bytes = length,
        .reading = reading_backward,
    };
}

/* Half of all that has a limit, but for the levels: two such sheets can be joined. */
static void plan_half(struct random *random, struct plan *plan, unsigned length)
{
    plan_irregular(random, plan, length);
    plan->wires /= 2;
    plan->wire_bytes *= 2;
    plan->outputs /= 2;
    plan->cells_wanted /= 2;
}

typedef void planner(struct random *random, struct plan *plan, unsigned length);

/* Generates sheets until one is correct and has about the length asked. */
static void generate_irregular(struct random *random, struct generator *generator, struct buffer *bytes, planner *make_plan,
                               unsigned length)
{
    bool fits = false;
    while (!fits) {
        memset(generator, 0, sizeof *generator);
        generator->random = random;
        generator->sheet = bytes;
        make_plan(random, &generator->plan, length);
        fits = generate_sheet(generator) && bytes->length >= length - length / 20 && bytes->length <= length + length / 50;
    }
}

static size_t take(uint8_t *to, const struct buffer *from)
{
    memcpy(to, from->bytes, from->length);
    return from->length;
}

static void make_sheet(struct random *random, struct sheet *sheet, planner *make_plan, unsigned length)
{
    static struct generator generator;
    static struct buffer bytes;
    generate_irregular(random, &generator, &bytes, make_plan, length);
    sheet->length = take(sheet->bytes, &bytes);
    sheet->wires = generator.plan.wires;
    fill_memory(random, &generator, &bytes);
    sheet->memory_length = take(sheet->memory, &bytes);
    fill_input(random, generator.input_types, generator.plan.inputs, &bytes);
    sheet->input_length = take(sheet->input, &bytes);
    sheet->output_length = generator.plan.outputs * NUTHATCHBED_ENTRY_BYTES;
    (void)fill_schedule(random, &generator, &bytes);
    (void)take(sheet->schedule, &bytes);
}

static void make_group(struct group *group, const char *name, planner *make_plan, unsigned length)
{
    struct random random = {length};
    group->name = name;
    group->count = most_in_group;
    for (unsigned index = 0; index < group->count; index++)
        make_sheet(&random, &group->sheets[index], make_plan, length);
}

void make_irregular_2000(struct group *group)
{
    make_group(group, "random, 2,000 bytes", plan_irregular, 2000);
}

void make_irregular_4000(struct group *group)
{
    make_group(group, "random, 4,000 bytes", plan_irregular, 4000);
}

void make_irregular_halves(struct group *group)
{
    make_group(group, "halves, 2,000 bytes", plan_half, 2000);
}
