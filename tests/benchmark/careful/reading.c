/* The reading of careful C: the sheet is read once, by a table of kinds and without recursion, into an array of nodes; for an instant the
 * nodes are then linked. Rests on nothing but the table, which stands here.
 */
#include "benchmark/careful/internal.h"

#include <string.h>

#define SECOND linked_bit
#define THIRD (linked_bit | third_bit)
#define NUMBER number_bit
#define DELAYED delayed_bit
#define PLACE (level_bits | delayed_bit)
#define PLACE_AND_TYPE (PLACE | number_bit)

/* A machine has no shape: it is read apart, so that what it alone has, a fourth operand and a cell of another type than its own, costs the
 * others nothing. */
static const struct shape shapes[kind_machine] = {
    [kind_boolean] = {2, 0, 0, type_boolean, 255, {0}, {0}, 255},
    [kind_number] = {5, 0, 0, type_number, 0, {0}, {0}, UINT32_MAX},
    [kind_wire] = {2, 0, 0, type_wire, 255, {0}, {0}, 255},
    [kind_input] = {2, 0, 0, type_input, 255, {0}, {0}, 255},
    [kind_not] = {1, 1, 0, type_boolean, 0, {0}, {PLACE}, 0},
    [kind_negate] = {1, 1, 0, type_number, 0, {NUMBER}, {PLACE}, 0},
    [kind_and] = {1, 2, 0, type_boolean, 0, {SECOND, 0}, {PLACE, PLACE}, 0},
    [kind_or] = {1, 2, 0, type_boolean, 0, {SECOND, 0}, {PLACE, PLACE}, 0},
    [kind_add] = {1, 2, 0, type_number, 0, {SECOND | NUMBER, NUMBER}, {PLACE, PLACE}, 0},
    [kind_subtract] = {1, 2, 0, type_number, 0, {SECOND | NUMBER, NUMBER}, {PLACE, PLACE}, 0},
    [kind_less] = {1, 2, 0, type_boolean, 0, {SECOND | NUMBER, NUMBER}, {PLACE, PLACE}, 0},
    [kind_equal] = {1, 2, 0, type_boolean, 0, {SECOND | NUMBER, NUMBER}, {PLACE, PLACE}, 0},
    [kind_if] = {1, 3, 0, type_either, 0, {THIRD, SECOND, 0}, {PLACE_AND_TYPE, PLACE_AND_TYPE, PLACE}, 0},
    [kind_present] = {1, 3, 0, type_either, 0, {THIRD, SECOND, 0}, {PLACE_AND_TYPE, PLACE_AND_TYPE, PLACE}, 0},
    [kind_reset] = {1, 2, 0, type_either, 0, {SECOND, 0}, {PLACE_AND_TYPE, PLACE}, 0},
    [kind_boolean_pre] = {2, 1, 1, type_boolean, 255, {DELAYED}, {PLACE}, 255},
    [kind_number_pre] = {5, 1, 1, type_number, 0, {DELAYED | NUMBER}, {PLACE}, UINT32_MAX},
    [kind_fby] = {1, 2, 1, type_either, 0, {SECOND | DELAYED, 0}, {PLACE_AND_TYPE, PLACE_AND_TYPE}, 0},
    [kind_last] = {2, 0, 0, type_last, 255, {0}, {0}, 255},
};

/* Owns the cells of kept wires, and starts them with 0. */
static const struct node owner_of_kept = {.kind = kind_last};

/* ---- The header ---- */

static uint32_t read_count(struct program *program, unsigned least, unsigned most, unsigned *count)
{
    if (program->place >= program->length)
        return refusal(2, program->length);
    *count = program->sheet[program->place];
    if (*count < least || *count > most)
        return refusal(3, program->place);
    program->place++;
    return 0;
}

static uint32_t read_types(struct program *program, unsigned count, unsigned highest, uint8_t *types)
{
    static const uint8_t types_of_bytes[highest_wire_type + 1] = {1, 2, 1 | kept_bit, 2 | kept_bit};
    size_t place = program->place;
    unsigned met = 0;
    for (unsigned index = 0; index < count; index++, place++) {
        const unsigned type = program->sheet[place];
        if (type > highest)
            return place < program->length ? refusal(4, place) : refusal(2, program->length);
        types[index] = types_of_bytes[type];
        met |= type;
    }
    program->place = place;
    program->some_kept = is_kept(met);
    return 0;
}

static uint32_t read_outputs(struct program *program)
{
    unsigned lowest_allowed = 0;
    program->output_wires = program->sheet + program->place;
    for (unsigned index = 0; index < program->outputs; index++, program->place++) {
        if (program->place >= program->length)
            return refusal(2, program->length);
        const unsigned wire = program->sheet[program->place];
        if (wire >= program->wires || wire < lowest_allowed)
            return refusal(5, program->place);
        lowest_allowed = wire + 1;
    }
    return 0;
}

static uint32_t read_header(struct program *program)
{
    uint32_t refused = read_count(program, 0, most_inputs, &program->inputs);
    if (refused == 0)
        refused = read_types(program, program->inputs, highest_input_type, program->types + type_input);
    if (refused == 0)
        refused = read_count(program, 1, most_wires, &program->wires);
    if (refused == 0)
        refused = read_types(program, program->wires, highest_wire_type, program->types + type_wire);
    if (refused == 0)
        refused = read_count(program, 1, most_outputs, &program->outputs);
    if (refused == 0)
        refused = read_outputs(program);
    return refused;
}

/* ---- The expressions ---- */

/* The reading with the reads noted is made apart from that without, and that with kept wires or machines likewise, so that none does anything
 * for what it does not need. */
#define ALWAYS_INLINE static inline __attribute__((always_inline))

/* The wire that an expression reads within the instant, if it does; a number only counts where it is a wire's. */
static inline uint64_t read_of(unsigned kind, unsigned standing, uint32_t number)
{
    const unsigned reads_wire = (kind == kind_wire) & ~standing >> delayed_shift;
    return (uint64_t)reads_wire << number % most_wires;
}

/* Notes an expression as a node; and as the owner of the next cell, which is written over where it owns none. */
static inline void note_node(struct program *program, struct node *node, unsigned kind, unsigned standing, unsigned cells,
                             uint32_t number)
{
    node->kind = (uint8_t)kind;
    node->standing = (uint8_t)standing;
    node->first_cell = node->end_cell = (uint8_t)cells;
    node->is.number = number;
    program->cell_node[cells] = node;
    program->cell_type[cells] = (uint8_t)(standing >> number_shift);
}

/* A machine that is met where none is looked for is noted, so that the expressions are read again. */
static uint32_t refuse_kind(struct program *program, size_t place)
{
    program->some_machine = program->sheet[place] == kind_machine;
    return place < program->length ? refusal(6, place) : refusal(2, program->length);
}

/* Puts the operands of a machine on the stack, the last one first, and answers where its top is then. */
static inline uint16_t *push_machine(uint16_t *top, unsigned standing)
{
    const unsigned condition = (standing & PLACE) + 1;
    const unsigned body = (standing & PLACE_AND_TYPE) + 1;
    *top++ = (uint16_t)(body | fourth_bits);
    *top++ = (uint16_t)(body | THIRD);
    *top++ = (uint16_t)(condition | SECOND);
    *top++ = (uint16_t)condition;
    return top;
}

/* Reads the expression of a wire: the operands that are still to be read stand on a stack, the next one on top. */
ALWAYS_INLINE uint32_t read_wire(struct program *program, unsigned wire, bool noting_reads, bool some_kept, bool some_machine)
{
    uint16_t stack[3 * deepest_level + 4];
    uint16_t *top = stack;
    size_t place = program->place;
    unsigned cells = program->cells;
    const unsigned cell_limit = some_kept ? program->cell_limit : most_cells;
    struct node *node = program->end;
    uint64_t reads = 0;
    *top++ = (uint16_t)(1 + ((program->types[type_wire + wire] >> 1 & 1) << number_shift));
    while (top != stack) {
        const unsigned standing = *--top;
        const unsigned asked = standing >> number_shift;
        const unsigned kind = program->sheet[place];
        if (kind > (some_machine ? kind_machine : kind_last))
            return refuse_kind(program, place);
        if ((standing & level_bits) > deepest_level)
            return refusal(8, place);
        if (some_machine && kind == kind_machine) {
            /* Its cell is a Boolean's, whatever is asked of it. */
            note_node(program, node++, kind, standing & ~(unsigned)number_bit, cells++, 0);
            if (cells > cell_limit)
                return refusal(10, place);
            place++;
            top = push_machine(top, standing);
            continue;
        }
        const struct shape *const shape = &shapes[kind];
        const uint32_t body = read_number(program->sheet + place + 1);
        const unsigned name = body & shape->name_mask;
        note_node(program, node++, kind, standing, cells, body & shape->body_mask);
        cells += shape->owns_cell;
        if (cells > cell_limit)
            return refusal(10, place);
        if (place + shape->bytes > program->length)
            return refusal(2, program->length);
        if (name >= program->name_limit[kind])
            return refusal(7, place);
        /* Nothing but the last of a wire that is not kept has no type at all. */
        if ((program->types[shape->type + name] >> asked & 1) == 0)
            return refusal(program->types[shape->type + name] == 0 ? 7 : 9, place);
        if (noting_reads)
            reads |= read_of(kind, standing, name);
        place += shape->bytes;
        for (unsigned operand = 0; operand < 3; operand++)
            top[operand] = (uint16_t)((shape->fixed[operand] | (standing & shape->taken[operand])) + 1);
        top += shape->operands;
    }
    program->place = place;
    program->cells = cells;
    program->end = node;
    if (noting_reads)
        program->wire_reads[wire] = reads;
    return 0;
}

/* The cells of kept wires count from the start, and their lasts have a type. */
static void find_kept(struct program *program)
{
    program->cell_limit = most_cells;
    program->name_limit[kind_last] = (uint8_t)program->wires;
    for (unsigned wire = 0; wire < program->wires; wire++) {
        const unsigned type = program->types[type_wire + wire];
        const unsigned kept = type / kept_bit;
        program->kept |= (uint64_t)kept << wire;
        program->cell_limit -= kept;
        program->types[type_last + wire] = (uint8_t)(kept * type);
    }
}

/* The cell of a kept wire is numbered before those of its expression. */
static void number_kept(struct program *program, unsigned wire)
{
    program->kept_place[wire] = (uint16_t)(bytes_of_cell * program->cells);
    program->cell_node[program->cells] = &owner_of_kept;
    program->cell_type[program->cells] = program->types[type_wire + wire] >> 1 & 1;
    program->cells++;
    program->cell_limit++;
}

ALWAYS_INLINE uint32_t read_expressions(struct program *program, bool noting_reads, bool some_kept, bool some_machine)
{
    program->cells = 0;
    program->end = program->node + 1;
    memset(program->name_limit, 2, sizeof program->name_limit);
    program->name_limit[kind_wire] = (uint8_t)program->wires;
    program->name_limit[kind_input] = (uint8_t)program->inputs;
    program->name_limit[kind_last] = 0;
    program->kept = 0;
    if (some_kept)
        find_kept(program);
    for (unsigned wire = 0; wire < program->wires; wire++) {
        if (some_kept && program->types[type_wire + wire] >= kept_bit)
            number_kept(program, wire);
        program->wire_node[wire] = program->end;
        const uint32_t refused = read_wire(program, wire, noting_reads, some_kept, some_machine);
        if (refused != 0)
            return refused;
    }
    program->wire_node[program->wires] = program->end;
    return program->place < program->length ? refusal(11, program->place) : 0;
}

ALWAYS_INLINE uint32_t read_sheet_into(struct program *program, const uint8_t *sheet, size_t length, bool noting_reads)
{
    static const uint8_t types_of_kinds[type_input] = {1, 1, 2, 3};
    program->some_machine = false;
    if (length == 0 || length > longest_sheet)
        return refusal(1, 0);
    memcpy(program->sheet, sheet, length);
    memset(program->sheet + length, 255, 8);
    memcpy(program->types, types_of_kinds, sizeof types_of_kinds);
    program->length = length;
    program->place = 0;
    const uint32_t refused = read_header(program);
    if (refused != 0)
        return refused;
    return program->some_kept ? read_expressions(program, noting_reads, true, false) : read_expressions(program, noting_reads, false, false);
}

/* Reads the expressions, which begin behind the last output, again; kept wires may be there too. */
__attribute__((noinline)) static uint32_t read_machines(struct program *program, bool noting_reads)
{
    program->place = (size_t)(program->output_wires + program->outputs - program->sheet);
    return noting_reads ? read_expressions(program, true, true, true) : read_expressions(program, false, true, true);
}

uint32_t read_program(struct program *program, const uint8_t *sheet, size_t length)
{
    const uint32_t refused = read_sheet_into(program, sheet, length, false);
    return program->some_machine ? read_machines(program, false) : refused;
}

uint32_t read_program_and_reads(struct program *program, const uint8_t *sheet, size_t length)
{
    const uint32_t refused = read_sheet_into(program, sheet, length, true);
    return program->some_machine ? read_machines(program, true) : refused;
}

/* ---- The nodes linked ---- */

/* As the table of shapes has it, without a look at the table. */
static inline bool owns_cell(unsigned kind, bool some_machine)
{
    return (kind >= kind_boolean_pre && kind <= kind_fby) || (some_machine && kind == kind_machine);
}

/* Links the nodes of a wire, tells each of them its cells, and answers the wires that are read within the instant. The path leads from
 * the wire down to the node at hand. */
ALWAYS_INLINE uint64_t link_wire(struct program *program, struct node **path, struct node *node, const struct node *end, bool some_machine)
{
    uint64_t reads = 0;
    for (; node != end; node++) {
        const unsigned standing = node->standing;
        const unsigned level = standing & level_bits;
        struct node *const parent = path[(level - 1) & (0u - (standing >> linked_shift))];
        parent->is.link[standing >> third_shift & 1] = (uint16_t)(node - parent);
        if (some_machine && (standing & (linked_bit | third_bit)) == fourth_bits)
            program->fourth[path[level - 1]->first_cell] = (uint16_t)(node - path[level - 1]);
        path[level] = node;
        reads |= read_of(node->kind, standing, node->is.number);
        for (unsigned above = owns_cell(node->kind, some_machine) ? level : 0; above != 0; above--)
            path[above]->end_cell = (uint8_t)(node->first_cell + 1);
    }
    return reads;
}

/* The linking where there is a machine is made apart too. */
ALWAYS_INLINE void link_wires(struct program *program, bool some_machine)
{
    struct node *path[deepest_level + 1] = {program->node};
    for (unsigned wire = 0; wire < program->wires; wire++)
        program->wire_reads[wire] = link_wire(program, path, program->wire_node[wire], program->wire_node[wire + 1], some_machine);
}

void link_nodes(struct program *program)
{
    if (program->some_machine)
        link_wires(program, true);
    else
        link_wires(program, false);
}
