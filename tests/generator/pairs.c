/* Pairs of sheets that are joined. Where they are to come to a limit together, each is planned small, what has the limit is shared out
 * between them, and they are generated until they have just that. Rests on sheets.c and buffer.c.
 */
#include "generator/pairs.h"

#include <string.h>

/* ---- What a pair has ---- */

static unsigned amount_of(const struct board *pair, unsigned sheet, enum sum sum)
{
    const struct generator *const generator = &pair->sheets[sheet];
    const unsigned amounts[sums] = {generator->plan.inputs, generator->plan.wires, generator->plan.outputs, generator->cells,
                                    (unsigned)pair->bytes[sheet].length};
    return amounts[sum];
}

unsigned sum_of_pair(const struct board *pair, enum sum sum)
{
    const unsigned both = amount_of(pair, 0, sum) + amount_of(pair, 1, sum);
    return sum == sum_length ? both - bytes_of_counts : both;
}

/* But for one sum, which may be any. */
static bool others_fit(const struct board *pair, enum sum but)
{
    bool fit = true;
    for (unsigned sum = 0; sum < sums; sum++)
        fit = fit && (sum == but || sum_of_pair(pair, sum) <= limit_of_sum[sum]);
    return fit;
}

/* ---- Any two, and one twice ---- */

static void generate_any(struct random *random, struct board *pair, unsigned sheet)
{
    do
        prepare_generator(&pair->sheets[sheet], random, &pair->bytes[sheet]);
    while (!generate_sheet(&pair->sheets[sheet]));
}

static void repeat_first(struct board *pair)
{
    pair->sheets[1] = pair->sheets[0];
    pair->sheets[1].sheet = &pair->bytes[1];
    copy_buffer(&pair->bytes[1], &pair->bytes[0]);
}

/* ---- Two that come to a limit ---- */

static unsigned at_most(unsigned number, unsigned most)
{
    return number < most ? number : most;
}

static unsigned at_least(unsigned number, unsigned least)
{
    return number > least ? number : least;
}

/* At most half of all that has a limit. */
static void plan_half(struct plan *plan)
{
    plan->inputs = at_most(plan->inputs, most_inputs / 2);
    plan->wires = at_most(plan->wires, most_wires / 2);
    plan->outputs = at_most(plan->outputs, at_most(plan->wires, most_outputs / 2));
    plan->cells_wanted = most_cells / 2;
    plan->wire_bytes = at_most(plan->wire_bytes, 60);
    plan->sheet_bytes = 1500;
}

static void plan_inputs(struct random *random, struct plan *plan, unsigned inputs)
{
    (void)random;
    plan->inputs = inputs;
    if (inputs == 0)
        plan->reading = reading_backward;
}

static void plan_wires(struct random *random, struct plan *plan, unsigned wires)
{
    plan->wires = wires;
    plan->outputs = at_most(plan->outputs, wires);
    plan->kept_share = percent(random, 50) ? at_most(plan->kept_share, 40) : 0;
    plan->wire_bytes = between(random, 10, 30);
}

static void plan_outputs(struct random *random, struct plan *plan, unsigned outputs)
{
    (void)random;
    plan->outputs = outputs;
    plan->wires = at_least(plan->wires, outputs);
}

/* Deep enough for as many as there may be; and no kept wires where they would be more than that. */
static void plan_cells(struct random *random, struct plan *plan, unsigned cells)
{
    plan->wires = between(random, 10, 16);
    plan->outputs = at_most(plan->outputs, plan->wires);
    plan->deepest = between(random, 9, 12);
    plan->spine = true;
    plan->wire_bytes = 120;
    plan->cell_share = 70;
    plan->cells_wanted = cells;
    plan->kept_share = cells < plan->wires ? 0 : plan->kept_share;
}

/* The levels that are left are for what is put in. */
static void plan_length(struct random *random, struct plan *plan, unsigned length)
{
    plan->wires = between(random, 20, most_wires / 2);
    plan->deepest = deepest_level / 2;
    plan->spine = false;
    plan->leaf_share = between(random, 5, 15);
    plan->wire_bytes = 3 * length / (2 * plan->wires);
    plan->sheet_bytes = length - between(random, 10, 40);
}

/* Nots or negates, put in before the expression of wire 0, leave the reads and cells of a sheet as they are. Answers whether the sheet
 * could be made to have this length. */
static bool make_long(struct generator *generator, size_t length)
{
    const struct plan *const plan = &generator->plan;
    struct buffer *const sheet = generator->sheet;
    uint8_t *const expression = sheet->bytes + bytes_of_counts + plan->inputs + plan->wires + plan->outputs;
    const size_t missing = length - sheet->length;
    if (sheet->length > length || missing > deepest_level - plan->deepest)
        return false;
    memmove(expression + missing, expression, (size_t)(sheet->bytes + sheet->length - expression));
    memset(expression, generator->wire_types[0] == 0 ? 4 : 5, missing);
    sheet->length = length;
    return true;
}

/* How a sheet is planned to have an amount of what is added up, and the least that it is asked to have. */
static const struct {
    void (*plan)(struct random *random, struct plan *plan, unsigned amount);
    unsigned least;
} amounts[sums] = {
    [sum_inputs] = {plan_inputs, 0}, [sum_wires] = {plan_wires, 1},     [sum_outputs] = {plan_outputs, 1},
    [sum_cells] = {plan_cells, 0},   [sum_length] = {plan_length, 800},
};

static void generate_with(struct random *random, struct board *pair, unsigned sheet, enum sum sum, unsigned amount)
{
    struct generator *const generator = &pair->sheets[sheet];
    bool fits = false;
    while (!fits) {
        prepare_generator(generator, random, &pair->bytes[sheet]);
        plan_half(&generator->plan);
        amounts[sum].plan(random, &generator->plan, amount);
        fits = generate_sheet(generator) && (sum != sum_length || make_long(generator, amount)) && amount_of(pair, sheet, sum) == amount;
    }
}

/* Only what is given may be above its limit. */
static void generate_at_limit(struct random *random, struct board *pair, enum sum sum, unsigned joined)
{
    const unsigned both = joined + (sum == sum_length ? bytes_of_counts : 0);
    const unsigned least = at_least(amounts[sum].least, both > limit_of_sum[sum] ? both - limit_of_sum[sum] : 0);
    do {
        const unsigned first = between(random, least, both - least);
        generate_with(random, pair, 0, sum, first);
        generate_with(random, pair, 1, sum, both - first);
    } while (!others_fit(pair, sum));
}

void generate_pair(struct random *random, struct board *pair)
{
    const unsigned manner = below(random, 100);
    const enum sum sum = (enum sum)below(random, sums);
    pair->count = sheets_of_pair;
    if (manner >= 50) {
        generate_at_limit(random, pair, sum, limit_of_sum[sum] + below(random, 2));
        return;
    }
    generate_any(random, pair, 0);
    if (manner < 40)
        generate_any(random, pair, 1);
    else
        repeat_first(pair);
}
