/* Plans of sheets, drawn at random: many small sheets, some deep, wide, full of cells or of kept wires, or long. Rests on random.c. */
#include "generator/sheets.h"

static void plan_small(struct random *random, struct plan *plan)
{
    plan->wires = between(random, 1, 6);
    plan->deepest = between(random, 1, 5);
    plan->wire_bytes = 60;
}

static void plan_middling(struct random *random, struct plan *plan)
{
    plan->wires = between(random, 4, 20);
    plan->deepest = between(random, 2, 8);
    plan->wire_bytes = 60;
}

static void plan_deep(struct random *random, struct plan *plan)
{
    plan->wires = between(random, 1, 4);
    plan->deepest = percent(random, 80) ? between(random, 9, 16) : between(random, 17, 18);
    plan->spine = true;
    plan->wire_bytes = 150;
}

static void plan_wide(struct random *random, struct plan *plan)
{
    plan->wires = percent(random, 40) ? 64 : between(random, 30, 64);
    plan->deepest = between(random, 1, 4);
    plan->wire_bytes = 15;
}

static void plan_full_of_cells(struct random *random, struct plan *plan)
{
    plan->wires = between(random, 4, 12);
    plan->deepest = between(random, 8, 16);
    plan->spine = true;
    plan->wire_bytes = 200;
    plan->cell_share = 60;
    plan->cells_wanted = between(random, most_cells - 1, most_cells + 2);
}

/* With as many kept wires as there may be cells, or nearly so. */
static void plan_full_of_kept(struct random *random, struct plan *plan)
{
    plan->wires = percent(random, 60) ? most_wires : between(random, 55, most_wires);
    plan->deepest = between(random, 1, 4);
    plan->wire_bytes = 15;
    plan->cell_share = between(random, 20, 60);
    plan->cells_wanted = between(random, most_cells - 1, most_cells + 2);
    plan->kept_share = percent(random, 50) ? 100 : between(random, 80, 99);
}

static void plan_long(struct random *random, struct plan *plan)
{
    plan->wires = between(random, 20, 64);
    plan->deepest = 16;
    plan->wire_bytes = 400;
    plan->leaf_share = 10;
    plan->sheet_bytes = between(random, 3500, 4300);
}

static void choose_size(struct random *random, struct plan *plan)
{
    const unsigned size = below(random, 100);
    plan->cells_wanted = most_cells;
    plan->sheet_bytes = 3500;
    plan->cell_share = between(random, 5, 40);
    plan->leaf_share = between(random, 10, 50);
    if (size < 48)
        plan_small(random, plan);
    else if (size < 68)
        plan_middling(random, plan);
    else if (size < 80)
        plan_deep(random, plan);
    else if (size < 88)
        plan_wide(random, plan);
    else if (size < 95)
        plan_full_of_cells(random, plan);
    else if (size < 99)
        plan_full_of_kept(random, plan);
    else
        plan_long(random, plan);
}

/* Half of the sheets have no kept wires. */
static void choose_kept(struct random *random, struct plan *plan)
{
    if (plan->kept_share == 0 && percent(random, 50))
        plan->kept_share = between(random, 10, 90);
    plan->last_share = between(random, 10, 60);
    plan->stray_share = percent(random, 15) ? between(random, 1, 20) : 0;
}

/* Half of the sheets have no machines. */
static void choose_machines(struct random *random, struct plan *plan)
{
    if (percent(random, 50))
        plan->machine_share = between(random, 5, 40);
}

static enum reading choose_reading(struct random *random)
{
    const unsigned reading = below(random, 100);
    if (reading < 60)
        return reading_backward;
    if (reading < 80)
        return reading_mixed;
    return reading < 87 ? reading_wild : reading_two_way;
}

void choose_plan(struct random *random, struct plan *plan)
{
    *plan = (struct plan){0};
    choose_size(random, plan);
    choose_kept(random, plan);
    choose_machines(random, plan);
    plan->inputs = percent(random, 90) ? below(random, 6) : between(random, 6, most_inputs);
    plan->outputs = between(random, 1, plan->wires < most_outputs ? plan->wires : most_outputs);
    plan->wild_share = between(random, 1, 20);
    plan->wire_share = between(random, 40, 80);
    plan->chain = percent(random, 20);
    if (plan->chain && percent(random, 50)) {
        plan->wire_share = 100;
        plan->cell_share = 0;
    }
    plan->reading = choose_reading(random);
    if (plan->reading == reading_two_way && plan->inputs == 0)
        plan->inputs = 1;
}
