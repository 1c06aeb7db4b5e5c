/* Compares the library with the evaluator on random and damaged sheets, memories, rows and schedules, on boards of sheets and on pairs that
 * are joined: the same answer and the same bytes in every buffer, and directly demand 3, what a made schedule is and what a tick and a join
 * promise; then on pairs of numbers. Rests on the generator, the harness and the steps.
 *
 * Usage: compare [CASES] [SEED]
 */
#include "comparison/case.h"

#include "evaluator/evaluator.h"
#include "generator/damage.h"
#include "generator/rows.h"

#include <errno.h>
#include <stdio.h>
#include <stdlib.h>
#include <string.h>

/* What is tried of each sheet once its check was compared, in this order: a step put at the end leaves the cases of those before it
 * as they are. */
static step *const steps[] = {compare_refused_sheet, compare_instants, compare_maker, compare_board, compare_frames, compare_joining};

enum { pairs_of_numbers = 1000000 };

/* Answers whether the sheet has to pass the check. */
static bool make_sheet(struct harness *harness, struct workspace *workspace)
{
    struct generator *const generator = &workspace->subject.generator;
    struct buffers *const given = &workspace->given;
    for (unsigned role = role_memory; role < roles; role++)
        given->of[role].length = 0;
    prepare_generator(generator, &harness->random, &given->of[role_sheet]);
    const bool correct = generate_sheet(generator);
    if (!percent(&harness->random, 35))
        return correct;
    damage_sheet(generator);
    return false;
}

/* By the evaluator, with which the maker's step compares the library. */
static unsigned depth_of(const struct buffer *sheet, unsigned wires)
{
    uint8_t list[most_wires];
    const uint32_t answer = evaluator_schedule(sheet->bytes, sheet->length, list, wires);
    return answer < first_refusal ? answer : 0;
}

/* Notes what the header, the count of cells and the reads say of a sheet that passed the check. */
static void note_subject(struct harness *harness, struct workspace *workspace, unsigned cells)
{
    struct subject *const subject = &workspace->subject;
    const uint8_t *const sheet = workspace->given.of[role_sheet].bytes;
    struct buffer *const schedule = &workspace->given.of[role_schedule];
    subject->inputs = sheet[0];
    subject->input_types = sheet + 1;
    subject->wires = sheet[1 + subject->inputs];
    subject->outputs = sheet[2 + subject->inputs + subject->wires];
    subject->cells = cells;
    subject->with_kept = has_kept_wire(sheet);
    subject->depth = depth_of(&workspace->given.of[role_sheet], subject->wires);
    subject->without_schedule = subject->as_generated && !fill_schedule(&harness->random, &subject->generator, schedule);
    harness->statistics.count[counter_sheets_by_construction] += subject->as_generated;
}

static void run_case(struct harness *harness, struct workspace *workspace)
{
    struct subject *const subject = &workspace->subject;
    struct buffers *const given = &workspace->given;
    subject->as_generated = make_sheet(harness, workspace);
    const uint32_t answer = compare_call(harness, call_check, given, given);
    if (subject->as_generated && answer != subject->generator.cells)
        report_mismatch(harness, call_check, given, "a sheet correct by construction is refused");
    note_check_of_kept(harness, workspace, answer);
    note_check_of_machines(harness, workspace, answer);
    subject->passed_check = answer < first_refusal;
    if (subject->passed_check)
        note_subject(harness, workspace, answer);
    for (unsigned index = 0; index < sizeof steps / sizeof steps[0]; index++)
        steps[index](harness, workspace);
}

static bool read_argument(const char *text, uint64_t *number)
{
    char *end = NULL;
    if (text[0] < '0' || text[0] > '9')
        return false;
    errno = 0;
    *number = strtoull(text, &end, 10);
    return errno == 0 && *end == '\0';
}

int main(int argument_count, char **arguments)
{
    static struct harness harness;
    static struct workspace workspace;
    uint64_t cases = 100000;
    harness.seed = 20240229;
    if (argument_count > 3 || (argument_count > 1 && !read_argument(arguments[1], &cases)) ||
        (argument_count > 2 && !read_argument(arguments[2], &harness.seed))) {
        fprintf(stderr, "usage: compare [CASES] [SEED]\n");
        return 2;
    }
    for (; harness.case_number < cases; harness.case_number++) {
        /* Each case has a seed of its own, so that it does not depend on the ones before it. */
        struct random mixer = {harness.seed ^ (uint64_t)harness.case_number << 20};
        harness.random.state = next_random(&mixer);
        run_case(&harness, &workspace);
    }
    const bool all_met = print_statistics(&harness.statistics);
    const bool all_results_met = compare_pairs(&harness, &workspace, pairs_of_numbers);
    printf("compare: %llu cases and %d pairs of numbers, 0 mismatches\n", (unsigned long long)cases, pairs_of_numbers);
    return all_met && all_results_met ? 0 : 1;
}
