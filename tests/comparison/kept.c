/* What a comparison meets of kept wires and kinds 18 (document 02, K7), and what is demanded of a kept cell whatever the evaluator says: it
 * starts as 0, and an accepted instant stores the wire's value in it. Rests on the harness, on what the generator knows of a sheet and on
 * what the evaluator says of an accepted instant.
 */
#include "comparison/case.h"

#include "evaluator/evaluator.h"

#include <string.h>

enum { kind_last = 18, highest_kept_type = 3 };

enum { refused_type = 4, refused_body = 7, refused_type_asked = 9, refused_cells = 10, refused_cell = 13 };

static const uint8_t kept_start[bytes_of_cell] = {1};

static const uint8_t *wire_types_of(const uint8_t *sheet)
{
    return sheet + 2 + sheet[0];
}

static unsigned wires_of(const uint8_t *sheet)
{
    return sheet[1 + sheet[0]];
}

bool has_kept_wire(const uint8_t *sheet)
{
    bool kept = false;
    for (unsigned wire = 0; wire < wires_of(sheet); wire++)
        kept = kept || wire_types_of(sheet)[wire] > 1;
    return kept;
}

/* ---- The check ---- */

static void count_refused_type(unsigned long *count, const uint8_t *sheet, uint32_t place)
{
    const bool of_input = place <= sheet[0];
    count[counter_kept_inputs_refused] += of_input && sheet[place] <= highest_kept_type;
    count[counter_types_of_wires_refused] += !of_input;
}

static void count_refused_body(unsigned long *count, const uint8_t *sheet, uint32_t place)
{
    const bool of_last = sheet[place] == kind_last;
    const bool there = sheet[place + 1] < wires_of(sheet);
    count[counter_lasts_refused_not_kept] += of_last && there;
    count[counter_lasts_refused_not_there] += of_last && !there;
}

void note_check_of_kept(struct harness *harness, const struct workspace *workspace, uint32_t answer)
{
    const uint8_t *const sheet = workspace->given.of[role_sheet].bytes;
    unsigned long *const count = harness->statistics.count;
    const uint32_t place = answer % first_refusal;
    switch (answer / first_refusal) {
    case 0:
        count[counter_kept_sheets] += has_kept_wire(sheet);
        count[counter_kept_sheets_full] += has_kept_wire(sheet) && answer == most_cells;
        break;
    case refused_type:
        count_refused_type(count, sheet, place);
        break;
    case refused_body:
        count_refused_body(count, sheet, place);
        break;
    case refused_type_asked:
        count[counter_lasts_refused_type] += sheet[place] == kind_last;
        break;
    case refused_cells:
        count[counter_cells_refused_beside_kept] += has_kept_wire(sheet);
        break;
    default:
        break;
    }
}

/* ---- The start ---- */

void demand_kept_start(struct harness *harness, const struct workspace *workspace)
{
    const struct generator *const generator = &workspace->subject.generator;
    const struct buffers *const given = &workspace->given;
    if (!workspace->subject.as_generated)
        return;
    for (unsigned cell = 0; cell < generator->cells; cell++) {
        if (generator->cell_kind[cell] != kind_last)
            continue;
        if (memcmp(given->of[role_memory].bytes + bytes_of_cell * cell, kept_start, bytes_of_cell) != 0)
            report_mismatch(harness, call_start, given, "K7: a kept cell starts otherwise than with mark 1 and 0");
        harness->statistics.count[counter_kept_cells_started]++;
    }
}

/* ---- The instants ---- */

/* The cell is the lowest that is not valid: its mark, or its number where it is a Boolean's. */
static void count_refused_cell(unsigned long *count, const struct workspace *workspace, unsigned cell)
{
    const struct generator *const generator = &workspace->subject.generator;
    const uint8_t mark = workspace->given.of[role_memory].bytes[bytes_of_cell * cell];
    if (!workspace->subject.as_generated || generator->cell_kind[cell] != kind_last)
        return;
    count[counter_kept_cells_refused_mark_0] += mark == 0;
    count[counter_kept_booleans_refused] += mark == 1;
}

/* Whether one of these wires has a kept cell away from its start. */
static bool holds_something(const struct workspace *workspace, uint64_t wires)
{
    const struct generator *const generator = &workspace->subject.generator;
    bool holds = false;
    for (unsigned wire = 0; wire < generator->plan.wires; wire++) {
        const uint8_t *const cell = workspace->given.of[role_memory].bytes + bytes_of_cell * generator->kept_cell[wire];
        holds = holds || ((wires >> wire & 1) != 0 && memcmp(cell, kept_start, bytes_of_cell) != 0);
    }
    return holds;
}

_Static_assert(counter_lasts_in_body == counter_lasts_under_pre + aboves - 1, "counted in the order of what may be above");

static void count_lasts(unsigned long *count, const struct workspace *workspace)
{
    const struct buffers *const given = &workspace->given;
    const struct buffer *const sheet = &given->of[role_sheet];
    const struct lasts lasts = evaluator_lasts(sheet->bytes, sheet->length, given->of[role_memory].bytes, given->of[role_input].bytes);
    count[counter_lasts_given] += lasts.given != 0;
    count[counter_lasts_given_fresh] += holds_something(workspace, lasts.given_fresh);
    for (unsigned above = 0; above < aboves; above++)
        count[counter_lasts_under_pre + above] += workspace->subject.generator.above_lasts >> above & 1;
}

/* A kept wire that is an output shows what its cell must hold. */
static void demand_kept_stored(struct harness *harness, const struct workspace *workspace)
{
    const struct generator *const generator = &workspace->subject.generator;
    const uint8_t *const sheet = workspace->given.of[role_sheet].bytes;
    const uint8_t *const output_wires = wire_types_of(sheet) + wires_of(sheet) + 1;
    const struct buffers *const after = &workspace->by_rounds;
    for (unsigned index = 0; index < generator->plan.outputs; index++) {
        const unsigned wire = output_wires[index];
        const uint8_t *const cell = after->of[role_memory].bytes + bytes_of_cell * generator->kept_cell[wire];
        const uint8_t *const output = after->of[role_output].bytes + bytes_of_number * index;
        if (!generator->kept[wire])
            continue;
        if (cell[0] != 1 || memcmp(cell + 1, output, bytes_of_number) != 0)
            report_mismatch(harness, call_rounds, &workspace->given, "K7: a kept cell does not hold the wire's value");
        harness->statistics.count[counter_kept_outputs_stored]++;
    }
}

void note_rounds_of_kept(struct harness *harness, const struct workspace *workspace, uint32_t rounds)
{
    const struct subject *const subject = &workspace->subject;
    unsigned long *const count = harness->statistics.count;
    const uint32_t refused = rounds / first_refusal;
    if (!subject->with_kept)
        return;
    if (refused == refused_cell)
        count_refused_cell(count, workspace, rounds % first_refusal);
    count[counter_kept_instants_unknown] += refused == refused_unknown;
    count[counter_kept_instants_in_rounds] += refused == 0;
    if (refused != 0 || !subject->as_generated)
        return;
    count_lasts(count, workspace);
    demand_kept_stored(harness, workspace);
}

/* Whether a kind 18 names its own wire or one that is not earlier in the list, as a read could not. */
static bool names_later_wire(const struct generator *generator, const struct buffer *list)
{
    uint64_t earlier = 0;
    bool later = false;
    for (unsigned position = 0; position < list->length; position++) {
        later = later || (generator->lasts[list->bytes[position]] & ~earlier) != 0;
        earlier |= UINT64_C(1) << list->bytes[position];
    }
    return later;
}

void note_list_of_kept(struct harness *harness, const struct workspace *workspace)
{
    const struct subject *const subject = &workspace->subject;
    unsigned long *const count = harness->statistics.count;
    if (!subject->with_kept)
        return;
    count[counter_kept_instants_scheduled]++;
    count[counter_lists_past_lasts] += subject->as_generated && names_later_wire(&subject->generator, &workspace->given.of[role_schedule]);
}
