/* The step of a case that has a schedule made, of every sheet and whatever the list held. Beside the comparison with the evaluator, what
 * the generator knows of the reads says where a list must be made and where none, and the scheduled instant tries what is made. Rests on
 * the harness, on instants.c and on the generator's rows and loops.
 */
#include "comparison/case.h"

#include "generator/loops.h"
#include "generator/rows.h"
#include "generator/spoiling.h"

#include <string.h>

enum { refused_for_length = 17, refused_for_order = 19, refused_for_loop = 21 };

/* ---- Where there is no list ---- */

static bool has_waiting_below(const struct generator *generator, unsigned place)
{
    bool waiting = false;
    for (unsigned wire = 0; wire < place; wire++)
        waiting = waiting || leads_to_loop(generator, wire);
    return waiting;
}

/* A wire that reads itself is a loop of one read. */
static void note_loop(unsigned long *count, const struct generator *generator, unsigned place)
{
    const unsigned reads = reads_to_itself(generator, place);
    count[counter_loops_of_one] += reads == 1;
    count[counter_loops_of_two] += reads == 2;
    count[counter_loops_of_more] += reads > 2;
    count[counter_waiting_below_loop] += has_waiting_below(generator, place);
    if (reads > count[counter_longest_loop])
        count[counter_longest_loop] = reads;
}

/* The generator must know of no list, and of the place that it is the lowest wire on a loop. */
static void demand_loop(struct harness *harness, const struct workspace *workspace, unsigned place)
{
    const struct subject *const subject = &workspace->subject;
    const struct generator *const generator = &subject->generator;
    if (!subject->as_generated)
        return;
    if (!subject->without_schedule)
        report_mismatch(harness, call_make, &workspace->given, "no list for a sheet that has one");
    unsigned lowest = 0;
    while (reads_to_itself(generator, lowest) == 0)
        lowest++;
    if (place != lowest)
        report_mismatch(harness, call_make, &workspace->given, "another place than the lowest wire on a loop");
    note_loop(harness->statistics.count, generator, place);
}

/* ---- Where a list is made ---- */

static void bring_forward(struct buffer *list, unsigned from, unsigned to)
{
    const uint8_t wire = list->bytes[from];
    memmove(list->bytes + to + 1, list->bytes + to, from - to);
    list->bytes[to] = wire;
}

/* A lower wire that comes later must have waited: the scheduled instant refuses it at the earlier position, for what it reads. Memory and
 * rows in "given" are those of an accepted instant. */
static void demand_lowest(struct harness *harness, struct workspace *workspace)
{
    struct buffers *const given = &workspace->given;
    struct buffer *const list = &given->of[role_schedule];
    const unsigned wires = workspace->subject.wires;
    const unsigned position = below(&harness->random, wires);
    const unsigned later = between(&harness->random, position, wires - 1);
    struct buffer made;
    if (list->bytes[later] >= list->bytes[position])
        return;
    copy_buffer(&made, list);
    bring_forward(list, later, position);
    if (compare_call(harness, call_scheduled, given, &workspace->by_schedule) != refused_for_order * first_refusal + position)
        report_mismatch(harness, call_scheduled, given, "a lower wire could have been made to stand here");
    copy_buffer(list, &made);
    harness->statistics.count[counter_lower_wires_refused]++;
}

/* The made list stands in "given": an instant along it must be accepted and leave what the rounds leave. */
static void demand_schedule(struct harness *harness, struct workspace *workspace, uint32_t depth)
{
    const struct subject *const subject = &workspace->subject;
    struct buffers *const given = &workspace->given;
    if (subject->without_schedule)
        report_mismatch(harness, call_make, given, "a list for a sheet that has none");
    if (depth == 0 || depth > subject->wires)
        report_mismatch(harness, call_make, given, "a depth above the count of wires, or none");
    compare_start(harness, workspace);
    fill_input(&harness->random, subject->input_types, subject->inputs, &given->of[role_input]);
    fill_with_rubbish(&harness->random, &given->of[role_output], (size_t)bytes_of_number * subject->outputs);
    (void)compare_instant(harness, workspace, true);
    harness->statistics.count[counter_instants_along_made_list]++;
    harness->statistics.count[counter_kept_lists_made] += subject->with_kept;
    for (unsigned times = 0; times < 3; times++)
        demand_lowest(harness, workspace);
}

/* ---- Where neither is looked for ---- */

/* A refused sheet is refused as such whatever the list is, and then a list of another length whatever the reads are. */
static void demand_early_refusal(struct harness *harness, const struct workspace *workspace, uint32_t answer)
{
    const uint32_t refused = answer / first_refusal;
    if (workspace->subject.passed_check && answer != refused_for_length * first_refusal)
        report_mismatch(harness, call_make, &workspace->given, "a list of another length is not refused for that");
    if (!workspace->subject.passed_check && (refused == 0 || refused > last_refusal_of_sheet))
        report_mismatch(harness, call_make, &workspace->given, "a sheet that the check refused is not refused for that");
}

/* ---- The step ---- */

/* Now and then the list holds one that passes, which must play no part. Answers whether the sheet passed the check and the list has the
 * length that it asks. */
static bool lend_list(struct harness *harness, struct workspace *workspace)
{
    struct random *const random = &harness->random;
    const struct subject *const subject = &workspace->subject;
    struct buffer *const list = &workspace->given.of[role_schedule];
    if (subject->as_generated && percent(random, 20))
        (void)fill_schedule(random, &subject->generator, list);
    else
        fill_with_rubbish(random, list, subject->passed_check ? subject->wires : subject->generator.plan.wires);
    if (percent(random, 10))
        spoil_length(random, list);
    return subject->passed_check && list->length == subject->wires;
}

void compare_maker(struct harness *harness, struct workspace *workspace)
{
    struct buffers *const given = &workspace->given;
    const bool fits = lend_list(harness, workspace);
    const uint32_t answer = compare_call(harness, call_make, given, given);
    if (!fits)
        demand_early_refusal(harness, workspace, answer);
    else if (answer < first_refusal)
        demand_schedule(harness, workspace, answer);
    else if (answer / first_refusal == refused_for_loop)
        demand_loop(harness, workspace, answer % first_refusal);
    else
        report_mismatch(harness, call_make, given, "a list of the right length is refused");
}
