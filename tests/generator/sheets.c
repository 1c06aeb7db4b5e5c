/* Sheets that are correct by construction: each expression is made for the type asked, within levels, cells and bytes of the plan.
 * Rests on random.c and buffer.c.
 */
#include "generator/sheets.h"

#include <string.h>

static void generate_expression(struct generator *generator, unsigned asked, unsigned level, bool delayed, bool spine);

static bool may_read(struct generator *generator, unsigned wire, bool delayed)
{
    if (delayed || generator->plan.reading == reading_wild)
        return true;
    if (generator->plan.reading == reading_mixed && percent(generator->random, generator->plan.wild_share))
        return true;
    if (generator->falling)
        return generator->plan.reading == reading_by_input || generator->rank[wire] > generator->rank[generator->wire];
    return generator->rank[wire] < generator->rank[generator->wire];
}

/* Answers whether a wire of the type asked was found that may be read here. */
static bool generate_wire(struct generator *generator, unsigned asked, bool delayed)
{
    struct random *const random = generator->random;
    const unsigned rank = generator->rank[generator->wire];
    for (unsigned attempt = 0; attempt < 6; attempt++) {
        unsigned wire = below(random, generator->plan.wires);
        if (generator->plan.chain && !delayed && attempt == 0) {
            if (generator->falling && rank + 1 < generator->plan.wires)
                wire = generator->wire_of_rank[rank + 1];
            else if (!generator->falling && rank > 0)
                wire = generator->wire_of_rank[rank - 1];
        }
        if (generator->wire_types[wire] != asked || !may_read(generator, wire, delayed))
            continue;
        append(generator->sheet, 2);
        append(generator->sheet, wire);
        if (!delayed)
            generator->reads[generator->wire] |= UINT64_C(1) << wire;
        return true;
    }
    return false;
}

static bool generate_input(struct generator *generator, unsigned asked)
{
    if (generator->plan.inputs == 0)
        return false;
    const unsigned input = below(generator->random, generator->plan.inputs);
    if (generator->input_types[input] != asked)
        return false;
    append(generator->sheet, 3);
    append(generator->sheet, input);
    generator->above_inputs |= generator->above;
    return true;
}

static void note_last(struct generator *generator, unsigned wire)
{
    generator->lasts[generator->wire] |= UINT64_C(1) << wire;
    generator->above_lasts |= generator->above;
}

/* Answers whether a kept wire of the type asked was found; where it strays, any wire will do, also one that is not there. */
static bool generate_last(struct generator *generator, unsigned asked)
{
    struct random *const random = generator->random;
    const unsigned wires = generator->plan.wires;
    const bool stray = percent(random, generator->plan.stray_share);
    for (unsigned attempt = 0; attempt < 6; attempt++) {
        const unsigned wire = below(random, stray ? wires + 2 : wires);
        const bool fits = wire < wires && generator->kept[wire] && generator->wire_types[wire] == asked;
        if (!fits && !stray)
            continue;
        append(generator->sheet, 18);
        append(generator->sheet, wire);
        if (fits)
            note_last(generator, wire);
        else
            generator->strayed = true;
        return true;
    }
    return false;
}

static void append_constant(struct generator *generator, unsigned type)
{
    if (type == 0)
        append(generator->sheet, below(generator->random, 2));
    else
        append_number(generator->sheet, random_number(generator->random));
}

static void generate_leaf(struct generator *generator, unsigned asked, bool delayed)
{
    struct random *const random = generator->random;
    if (generator->plan.kept_share != 0 && percent(random, generator->plan.last_share) && generate_last(generator, asked))
        return;
    if (percent(random, generator->plan.wire_share) && generate_wire(generator, asked, delayed))
        return;
    if (percent(random, 70) && generate_input(generator, asked))
        return;
    append(generator->sheet, asked);
    append_constant(generator, asked);
}

static bool wants_cells(const struct generator *generator)
{
    return generator->cells + generator->kept_to_come < generator->plan.cells_wanted;
}

/* Where there are to be no machines, none is drawn for: so the sheets of a seed are what they were before there were any. */
static bool wants_machine(struct generator *generator, unsigned share)
{
    return generator->plan.machine_share != 0 && wants_cells(generator) && percent(generator->random, share);
}

static unsigned choose_kind(struct generator *generator, unsigned asked)
{
    static const uint8_t boolean_kinds[] = {4, 6, 7, 10, 11, 12, 13, 13, 14, 14};
    static const uint8_t number_kinds[] = {5, 8, 8, 9, 12, 13, 13, 14, 14};
    struct random *const random = generator->random;
    if (wants_cells(generator) && percent(random, generator->plan.cell_share))
        return below(random, 2) == 0 ? 17 : 15 + asked;
    if (wants_machine(generator, generator->plan.machine_share))
        return 19;
    if (asked == 0)
        return boolean_kinds[below(random, sizeof boolean_kinds)];
    return number_kinds[below(random, sizeof number_kinds)];
}

static unsigned count_of_operands(unsigned kind)
{
    if (kind == 19)
        return 4;
    if (kind == 12 || kind == 13)
        return 3;
    return kind == 4 || kind == 5 || kind == 15 || kind == 16 ? 1 : 2;
}

/* They come before the other operands. */
static unsigned count_of_conditions(unsigned kind)
{
    if (kind == 19)
        return 2;
    return kind >= 12 && kind <= 14 ? 1 : 0;
}

static unsigned type_of_operand(unsigned kind, unsigned operand, unsigned asked)
{
    if (kind == 10 || kind == 11)
        return 1;
    return operand < count_of_conditions(kind) ? 0 : asked;
}

/* What an operand stands under, one bit or none. */
static unsigned above_operand(unsigned kind, unsigned operand)
{
    if (kind == 15 || kind == 16)
        return 1u << above_pre;
    if (kind == 17)
        return 1u << (operand == 0 ? above_left_of_fby : above_right_of_fby);
    if (kind < 12)
        return 0;
    if (operand < count_of_conditions(kind))
        return 1u << above_condition;
    if (kind == 19)
        return 1u << above_body;
    return 1u << (kind == 14 ? above_reset : above_arm);
}

static void note_cell(struct generator *generator, unsigned kind, unsigned type)
{
    generator->cell_kind[generator->cells] = (uint8_t)kind;
    generator->cell_type[generator->cells] = (uint8_t)type;
    generator->cells++;
}

/* Its cell is a Boolean's, whatever is asked of it. */
static void note_machine(struct generator *generator)
{
    note_cell(generator, 19, 0);
    generator->machines++;
    generator->above_machines |= generator->above;
}

static void generate_node(struct generator *generator, unsigned kind, unsigned asked,
                          unsigned level, bool delayed, bool spine)
{
    const unsigned operands = count_of_operands(kind);
    const unsigned spine_operand = spine ? below(generator->random, operands) : operands;
    const unsigned above = generator->above;
    append(generator->sheet, kind);
    if (kind == 19)
        note_machine(generator);
    else if (kind >= 15)
        note_cell(generator, kind, asked);
    if (kind == 15 || kind == 16)
        append_constant(generator, asked);
    for (unsigned operand = 0; operand < operands; operand++) {
        const bool operand_delayed = delayed || kind == 15 || kind == 16 ||
                                     (kind == 17 && operand == 1);
        generator->above = above | above_operand(kind, operand);
        generate_expression(generator, type_of_operand(kind, operand, asked), level + 1,
                            operand_delayed, operand == spine_operand);
    }
    generator->above = above;
}

static void generate_expression(struct generator *generator, unsigned asked, unsigned level,
                                bool delayed, bool spine)
{
    if (level > deepest_level)
        generator->too_deep = true;
    const bool full = generator->sheet->length >= generator->wire_end ||
                      generator->sheet->length >= generator->plan.sheet_bytes;
    if (level >= generator->plan.deepest ||
        (!spine && (full || percent(generator->random, generator->plan.leaf_share))))
        generate_leaf(generator, asked, delayed);
    else
        generate_node(generator, choose_kind(generator, asked), asked, level, delayed, spine);
}

/* Whether each wire chooses by input 0 how it reads the others. */
static bool chooses_by_input(const struct plan *plan)
{
    return plan->reading == reading_two_way || plan->reading == reading_by_input;
}

/* Present input 0 do what reads by rising rank else what reads by falling. */
static void generate_two_arms(struct generator *generator, unsigned asked)
{
    append(generator->sheet, 13);
    append(generator->sheet, 3);
    append(generator->sheet, 0);
    generator->above = 1u << above_arm;
    generate_expression(generator, asked, 2, false, generator->plan.spine);
    generator->falling = true;
    generate_expression(generator, asked, 2, false, false);
    generator->above = 0;
}

/* A machine that leaves state 0 where input 0 holds and state 1 where it does not: body 1 runs where the first of two arms would, whatever
 * the state was. */
static void generate_two_bodies(struct generator *generator, unsigned asked)
{
    static const uint8_t machine_and_conditions[] = {19, 3, 0, 4, 3, 0};
    for (unsigned index = 0; index < sizeof machine_and_conditions; index++)
        append(generator->sheet, machine_and_conditions[index]);
    note_machine(generator);
    generator->above = 1u << above_body;
    generator->falling = true;
    generate_expression(generator, asked, 2, false, generator->plan.spine);
    generator->falling = false;
    generate_expression(generator, asked, 2, false, false);
    generator->above = 0;
}

static void generate_wire_expression(struct generator *generator, unsigned wire)
{
    const unsigned asked = generator->wire_types[wire];
    generator->wire = wire;
    generator->reads[wire] = 0;
    if (generator->kept[wire]) {
        generator->kept_cell[wire] = generator->cells;
        generator->kept_to_come--;
        note_cell(generator, 18, asked);
    }
    generator->wire_end = generator->sheet->length + generator->plan.wire_bytes;
    generator->falling = false;
    if (!chooses_by_input(&generator->plan))
        generate_expression(generator, asked, 1, false, generator->plan.spine);
    else if (wants_machine(generator, 60))
        generate_two_bodies(generator, asked);
    else
        generate_two_arms(generator, asked);
}

static void generate_header(struct generator *generator)
{
    struct random *const random = generator->random;
    struct buffer *const sheet = generator->sheet;
    append(sheet, generator->plan.inputs);
    for (unsigned input = 0; input < generator->plan.inputs; input++) {
        const bool condition = chooses_by_input(&generator->plan) && input == 0;
        generator->input_types[input] = condition ? 0 : (uint8_t)below(random, 2);
        append(sheet, generator->input_types[input]);
    }
    append(sheet, generator->plan.wires);
    for (unsigned wire = 0; wire < generator->plan.wires; wire++) {
        /* A chain wants wires of one type, or it would break off. */
        generator->wire_types[wire] = generator->plan.chain ? 1 : (uint8_t)below(random, 2);
        generator->kept[wire] = generator->plan.kept_share != 0 && percent(random, generator->plan.kept_share);
        generator->kept_to_come += generator->kept[wire];
        append(sheet, generator->wire_types[wire] + (generator->kept[wire] ? 2 : 0));
    }
    append(sheet, generator->plan.outputs);
    unsigned left = generator->plan.outputs;
    for (unsigned wire = 0; wire < generator->plan.wires; wire++) {
        if (below(random, generator->plan.wires - wire) < left) {
            append(sheet, wire);
            left--;
        }
    }
}

/* Wires of lower rank are those that a wire may read within the instant where a schedule is to exist. */
static void choose_ranks(struct generator *generator)
{
    shuffle(generator->random, generator->wire_of_rank, generator->plan.wires);
    for (unsigned rank = 0; rank < generator->plan.wires; rank++)
        generator->rank[generator->wire_of_rank[rank]] = (uint8_t)rank;
}

void prepare_generator(struct generator *generator, struct random *random, struct buffer *sheet)
{
    memset(generator, 0, sizeof *generator);
    generator->random = random;
    generator->sheet = sheet;
    choose_plan(random, &generator->plan);
}

bool generate_sheet(struct generator *generator)
{
    choose_ranks(generator);
    generator->sheet->length = 0;
    generate_header(generator);
    for (unsigned wire = 0; wire < generator->plan.wires; wire++)
        generate_wire_expression(generator, wire);
    return generator->sheet->length <= longest_sheet && !generator->too_deep && !generator->strayed && generator->cells <= most_cells;
}
