/* The step of a case that goes from instant to instant: the start, then preview, rounds and schedule from the same memory, row and list,
 * which must agree as K3 and demand 3 say, within the rounds of K6. Rests on the harness, on the generator's rows and on what the evaluator
 * says of a refusal 20.
 */
#include "comparison/case.h"

#include "evaluator/evaluator.h"
#include "generator/rows.h"
#include "generator/spoiling.h"

static void count_loop(unsigned long *count, const struct buffers *given, uint32_t place)
{
    const struct buffer *const sheet = &given->of[role_sheet];
    const struct stuck stuck =
        evaluator_stuck(sheet->bytes, sheet->length, given->of[role_memory].bytes, given->of[role_input].bytes);
    count[counter_loops_above_wire_0] += place > 0;
    if (place > count[counter_highest_loop])
        count[counter_highest_loop] = place;
    count[counter_loops_above_unknown] += place > stuck.lowest_unknown;
    count[counter_loops_not_by_reads] += place != stuck.by_reads;
    count[counter_waiting_directly] += stuck.waits_directly;
    count[counter_waiting_through_others] += !stuck.waits_directly;
}

/* On a sheet that has a schedule: 20 never comes, and the rounds are at most the greatest depth plus one. */
static void demand_few_rounds(struct harness *harness, const struct workspace *workspace, uint32_t rounds)
{
    const struct subject *const subject = &workspace->subject;
    unsigned long *const count = harness->statistics.count;
    if (subject->depth == 0)
        return;
    if (rounds / first_refusal == refused_unknown)
        report_mismatch(harness, call_rounds, &workspace->given, "K6: refused 20, and yet there is a schedule");
    if (rounds >= first_refusal)
        return;
    if (rounds > subject->depth + 1)
        report_mismatch(harness, call_rounds, &workspace->given, "K6: more rounds than the greatest depth plus one");
    count[counter_rounds_by_depth]++;
    count[counter_rounds_at_depth] += rounds == subject->depth + 1;
    count[counter_depths_below_wires] += subject->depth < subject->wires;
    if (subject->depth > count[counter_greatest_depth])
        count[counter_greatest_depth] = subject->depth;
}

static uint32_t compare_rounds(struct harness *harness, struct workspace *workspace)
{
    const struct subject *const subject = &workspace->subject;
    const struct buffers *const given = &workspace->given;
    unsigned long *const count = harness->statistics.count;
    const uint32_t rounds = compare_call(harness, call_rounds, given, &workspace->by_rounds);
    demand_few_rounds(harness, workspace, rounds);
    note_rounds_of_kept(harness, workspace, rounds);
    note_rounds_of_machines(harness, workspace, rounds);
    if (rounds / first_refusal == refused_unknown)
        count_loop(count, given, rounds % first_refusal);
    if (rounds >= first_refusal)
        return rounds;
    if (rounds == 0 || rounds > subject->wires + 1)
        report_mismatch(harness, call_rounds, given, "more rounds than wires plus one, or none");
    if (rounds > count[counter_most_rounds])
        count[counter_most_rounds] = rounds;
    count[counter_instants_without_schedule] += subject->without_schedule;
    return rounds;
}

/* The preview and then the rounds, with output rows that hold different bytes: the same answer and, where it is accepted, the same row. */
static uint32_t compare_rounds_previewed(struct harness *harness, struct workspace *workspace)
{
    struct buffers *const given = &workspace->given;
    struct buffers *const previewed = &workspace->previewed;
    const uint32_t shown = compare_call(harness, call_preview, given, previewed);
    fill_with_rubbish(&harness->random, &given->of[role_output], given->of[role_output].length);
    const uint32_t rounds = compare_rounds(harness, workspace);
    if (shown != rounds)
        report_mismatch(harness, call_rounds, given, "K3: the preview answers otherwise");
    if (rounds < first_refusal && !same_bytes(&previewed->of[role_output], &workspace->by_rounds.of[role_output]))
        report_mismatch(harness, call_rounds, given, "K3: the preview shows another row");
    harness->statistics.count[counter_instants_previewed] += rounds < first_refusal;
    harness->statistics.count[counter_kept_instants_previewed] += rounds < first_refusal && workspace->subject.with_kept;
    return rounds;
}

bool compare_instant(struct harness *harness, struct workspace *workspace, bool list_passes)
{
    struct buffers *const given = &workspace->given;
    const struct buffers *const by_rounds = &workspace->by_rounds;
    struct buffers *const by_schedule = &workspace->by_schedule;
    const bool accepted = compare_rounds_previewed(harness, workspace) < first_refusal;
    fill_with_rubbish(&harness->random, &given->of[role_output], given->of[role_output].length);
    const uint32_t scheduled = compare_call(harness, call_scheduled, given, by_schedule);
    if (list_passes && scheduled != 0)
        report_mismatch(harness, call_scheduled, given, "a list that passes is refused");
    if (scheduled != 0)
        return accepted;
    if (!accepted)
        report_mismatch(harness, call_scheduled, given, "demand 3: accepted only by schedule");
    if (!same_bytes(&by_rounds->of[role_memory], &by_schedule->of[role_memory]) ||
        !same_bytes(&by_rounds->of[role_output], &by_schedule->of[role_output]))
        report_mismatch(harness, call_scheduled, given, "demand 3: rounds and schedule differ");
    harness->statistics.count[counter_instants_both_ways]++;
    note_list_of_kept(harness, workspace);
    note_list_of_machines(harness, workspace);
    return true;
}

/* Fills "given", whose memory is there already, for one instant. Answers whether, by the
 * generator's knowledge, memory, rows and list pass. */
static bool prepare_instant(struct harness *harness, const struct subject *subject, struct buffers *given)
{
    struct random *const random = &harness->random;
    const struct generator *const generator = &subject->generator;
    bool list_passes = false;
    if (subject->as_generated && percent(random, 20))
        fill_memory(random, generator, &given->of[role_memory]);
    fill_input(random, subject->input_types, subject->inputs, &given->of[role_input]);
    fill_with_rubbish(random, &given->of[role_output], (size_t)bytes_of_number * subject->outputs);
    if (subject->as_generated && percent(random, 90))
        list_passes = fill_schedule(random, generator, &given->of[role_schedule]);
    else
        fill_with_permutation(random, subject->wires, &given->of[role_schedule]);
    if (percent(random, 25)) {
        spoil_rows(random, given);
        list_passes = false;
    }
    return list_passes;
}

void compare_start(struct harness *harness, struct workspace *workspace)
{
    struct random *const random = &harness->random;
    struct buffers *const given = &workspace->given;
    const size_t length = (size_t)bytes_of_cell * workspace->subject.cells;
    fill_with_rubbish(random, &given->of[role_memory], length);
    if (percent(random, 10)) {
        spoil_length(random, &given->of[role_memory]);
        (void)compare_call(harness, call_start, given, given);
        fill_with_rubbish(random, &given->of[role_memory], length);
    }
    if (compare_call(harness, call_start, given, given) != 0)
        report_mismatch(harness, call_start, given, "the right length of memory is refused");
    demand_kept_start(harness, workspace);
    demand_machine_start(harness, workspace);
}

void compare_instants(struct harness *harness, struct workspace *workspace)
{
    const struct subject *const subject = &workspace->subject;
    struct buffers *const given = &workspace->given;
    struct buffer memory;
    if (!subject->passed_check)
        return;
    compare_start(harness, workspace);
    copy_buffer(&memory, &given->of[role_memory]);
    for (unsigned left = between(&harness->random, 1, 5); left != 0; left--) {
        copy_buffer(&given->of[role_memory], &memory);
        const bool list_passes = prepare_instant(harness, subject, given);
        if (compare_instant(harness, workspace, list_passes))
            copy_buffer(&memory, &workspace->by_rounds.of[role_memory]);
    }
}
