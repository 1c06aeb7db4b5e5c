/* The step of a case that gives a refused sheet to every call behind the check. Rests on the harness and on the generator's rows. */
#include "comparison/case.h"

#include "generator/rows.h"

void compare_refused_sheet(struct harness *harness, struct workspace *workspace)
{
    struct random *const random = &harness->random;
    const struct generator *const generator = &workspace->subject.generator;
    const struct plan *const plan = &generator->plan;
    struct buffers *const given = &workspace->given;
    if (workspace->subject.passed_check)
        return;
    fill_with_rubbish(random, &given->of[role_memory], (size_t)bytes_of_cell * (generator->cells % (most_cells + 1)));
    fill_with_rubbish(random, &given->of[role_input], (size_t)bytes_of_number * plan->inputs);
    fill_with_rubbish(random, &given->of[role_output], (size_t)bytes_of_number * plan->outputs);
    fill_with_permutation(random, plan->wires, &given->of[role_schedule]);
    for (unsigned call = call_start; call <= call_scheduled; call++) {
        if (compare_call(harness, call, given, given) < first_refusal)
            report_mismatch(harness, call, given, "a sheet that the check refused is accepted");
    }
}
