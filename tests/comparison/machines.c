/* What a comparison meets of machines (document 02, K8), and what is demanded of a machine's cell whatever the evaluator says: it starts in
 * state 0. Rests on the harness, on what the generator knows of a sheet and on what the evaluator says of an accepted instant.
 */
#include "comparison/case.h"

#include "evaluator/evaluator.h"

#include <string.h>

enum { kind_machine = 19, first_kind_above = 20 };

enum { refused_kind = 6, refused_cells = 10, refused_cell = 13 };

static bool has_machine(const struct subject *subject)
{
    return subject->as_generated && subject->generator.machines != 0;
}

void note_check_of_machines(struct harness *harness, const struct workspace *workspace, uint32_t answer)
{
    const uint8_t *const sheet = workspace->given.of[role_sheet].bytes;
    unsigned long *const count = harness->statistics.count;
    const uint32_t refused = answer / first_refusal;
    const uint32_t place = answer % first_refusal;
    count[counter_machine_sheets] += has_machine(&workspace->subject);
    count[counter_kinds_20_refused] += refused == refused_kind && sheet[place] == first_kind_above;
    count[counter_machines_refused_cell_65] += refused == refused_cells && sheet[place] == kind_machine;
}

void demand_machine_start(struct harness *harness, const struct workspace *workspace)
{
    static const uint8_t in_state_0[bytes_of_cell] = {1};
    const struct generator *const generator = &workspace->subject.generator;
    const struct buffers *const given = &workspace->given;
    if (!has_machine(&workspace->subject))
        return;
    for (unsigned cell = 0; cell < generator->cells; cell++) {
        if (generator->cell_kind[cell] != kind_machine)
            continue;
        if (memcmp(given->of[role_memory].bytes + bytes_of_cell * cell, in_state_0, bytes_of_cell) != 0)
            report_mismatch(harness, call_start, given, "K8: a machine starts otherwise than with mark 1 in state 0");
        harness->statistics.count[counter_machines_started]++;
    }
}

/* The cell is the lowest that is not valid. */
static void count_refused_cell(unsigned long *count, const struct workspace *workspace, unsigned cell)
{
    const uint8_t mark = workspace->given.of[role_memory].bytes[bytes_of_cell * cell];
    if (workspace->subject.generator.cell_kind[cell] != kind_machine)
        return;
    count[counter_machines_refused_mark_0] += mark == 0;
    count[counter_machines_refused_state] += mark == 1;
}

_Static_assert(counter_machines_in_body == counter_machines_under_pre + aboves - 1, "counted in the order of what may be above");

static void count_machines(unsigned long *count, const struct workspace *workspace)
{
    const struct buffers *const given = &workspace->given;
    const struct buffer *const sheet = &given->of[role_sheet];
    const struct machines machines =
        evaluator_machines(sheet->bytes, sheet->length, given->of[role_memory].bytes, given->of[role_input].bytes);
    count[counter_machines_run] += machines.run != 0;
    count[counter_machines_entered] += machines.entered != 0;
    count[counter_machines_entered_away] += machines.entered_away != 0;
    count[counter_machines_left_away] += machines.left_away != 0;
    count[counter_machines_fresh_in_state_1] += machines.fresh_in_state_1 != 0;
    count[counter_machines_accepted_by_rest] += machines.accepted_by_rest;
    for (unsigned above = 0; above < aboves; above++)
        count[counter_machines_under_pre + above] += workspace->subject.generator.above_machines >> above & 1;
}

void note_rounds_of_machines(struct harness *harness, const struct workspace *workspace, uint32_t rounds)
{
    unsigned long *const count = harness->statistics.count;
    const uint32_t refused = rounds / first_refusal;
    if (!has_machine(&workspace->subject))
        return;
    if (refused == refused_cell)
        count_refused_cell(count, workspace, rounds % first_refusal);
    count[counter_machine_instants_unknown] += refused == refused_unknown;
    if (refused == 0)
        count_machines(count, workspace);
}

void note_list_of_machines(struct harness *harness, const struct workspace *workspace)
{
    harness->statistics.count[counter_machine_instants_scheduled] += has_machine(&workspace->subject);
}
