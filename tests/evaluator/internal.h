/* What the files of the evaluator share: the table of kinds, what one reading of a sheet finds out, and where an instant stands.
 * Each function stands in the file that its heading names.
 */
#ifndef EVALUATOR_INTERNAL_H
#define EVALUATOR_INTERNAL_H

#include "common/format.h"
#include "evaluator/evaluator.h"

#include <stdbool.h>

/* The first two are the plain types of a sheet; the third stands in the table of shapes for
 * "the type asked of the whole expression". */
enum type { type_boolean = 0, type_number = 1, type_asked = 2 };

struct shape {
    uint8_t body;
    uint8_t operands;
    uint8_t type;
    uint8_t operand_types[4];
};

/* What one reading of a sheet finds out, so that nothing after the check looks for it again. */
struct layout {
    const uint8_t *sheet;
    size_t length;
    size_t place; /* the byte to be read next */
    const uint8_t *input_types;
    const uint8_t *wire_types; /* type bytes: some of the wires may be kept */
    const uint8_t *output_wires;
    unsigned inputs;
    unsigned wires;
    unsigned outputs;
    unsigned cells;     /* those of all kept wires from the start, and those of the expressions read */
    unsigned next_cell; /* the number that the next one gets */
    uint16_t wire_place[most_wires];
    uint8_t wire_first_cell[most_wires]; /* of its expression */
    uint64_t wire_reads[most_wires];     /* the wires it reads within the instant, one bit each */
    uint16_t cell_place[most_cells];     /* of the expression that owns it; 0, where none begins, for that of a kept wire */
    uint8_t cell_type[most_cells];
};

struct value {
    uint32_t number; /* a Boolean is 0 or 1; an unknown value is 0, so that equal values compare */
    bool known;
};

/* Where the working out stands: it runs over the sheet's bytes from expression to operand, and
 * counts the cells as their owners are met. */
struct instant {
    const struct layout *layout;
    const uint8_t *next; /* the kind byte of the expression to be worked out next */
    unsigned next_cell;
    const struct value *wires;
    const uint8_t *input;
    uint8_t *memory;           /* written by the storing alone */
    struct lasts lasts;        /* met so far */
    struct machines *machines; /* advanced so far; not noted where there is none */
    bool no_body_rests;        /* to be asked what would be then: a machine is unknown also where the body that does not run is */
};

/* Whether the last operand of a kind is worked out for the next instant alone. */
static inline bool delays_operand(unsigned kind)
{
    return kind >= kind_boolean_pre && kind <= kind_fby;
}

static inline bool owns_cell(unsigned kind)
{
    return delays_operand(kind) || kind == kind_machine;
}

/* Whether a cell belongs to an fby: only then it may have mark 0. */
static inline bool belongs_to_fby(const struct layout *layout, unsigned cell)
{
    const unsigned place = layout->cell_place[cell];
    return place != 0 && layout->sheet[place] == kind_fby;
}

/* The cell of a kept wire is numbered just before the cells of the wire's expression. */
static inline unsigned kept_cell(const struct layout *layout, unsigned wire)
{
    return layout->wire_first_cell[wire] - 1u;
}

/* The constant of a pre, given where its kind byte lies. */
static inline uint32_t starting_constant(const uint8_t *pre)
{
    return pre[0] == kind_boolean_pre ? pre[1] : read_number(pre + 1);
}

/* Moves to the expression of a wire. */
static inline void move_to_wire(struct instant *instant, unsigned wire)
{
    instant->next = instant->layout->sheet + instant->layout->wire_place[wire];
    instant->next_cell = instant->layout->wire_first_cell[wire];
}

/* ---- reading.c ---- */

extern const struct shape shapes[];

/* Reads the sheet into the layout; answers a refusal 1 to 11, or 0. */
uint32_t read_sheet(struct layout *layout, const uint8_t *sheet, size_t sheet_length);

/* ---- values.c ---- */

/* The operations of kinds 4 and 5, and of 6 to 11, on known values. */
uint32_t result_of_one(unsigned kind, uint32_t operand);
uint32_t result_of_two(unsigned kind, uint32_t first, uint32_t second);

/* Moves behind the expression that comes next without working it out. */
void pass_over(struct instant *instant);

/* Works out the expression that comes next and moves behind it. */
struct value value_of(struct instant *instant, bool fresh);

/* ---- machines.c ---- */

/* The operands of a machine in their order: the conditions of states 0 and 1, then the bodies of states 0 and 1. */
enum { machine_conditions = 2, machine_operands = 4 };

/* What an operand of a machine does in an instant: it runs, fresh or not, or it rests. */
struct turn {
    bool runs;
    bool fresh;
};

/* The current state of the machine whose operands come next; moves behind its cell. */
unsigned take_state(struct instant *instant, bool fresh);

/* What an operand does, where the state is current, the whole is fresh or not and the asked condition has this value. What a condition does
 * does not depend on that value, so that an operand's turn can be told as soon as those before it are worked out. */
struct turn turn_of(unsigned operand, unsigned state, struct value condition, bool fresh);

/* Notes what is to be said of a machine whose bodies come next and are to advance; its cell, given here, is not stored yet. */
void note_machine(const struct instant *instant, const uint8_t *cell, bool leaves, bool fresh);

/* ---- loops.c ---- */

/* The lowest wire that leads to itself in one or more steps, where each leads to the wires of its set; the count of wires where none does. */
unsigned lowest_on_loop(const uint64_t *sets, unsigned wires);

/* ---- waiting.c ---- */

/* For each wire the unknown wires that it waits for, under the instant's wires, one bit each; a known one waits for none. */
void find_waits(struct instant *instant, uint64_t *waits);

/* ---- instants.c ---- */

/* Refusals 12 and 13 of a memory, and 14 and 15 of an input row. */
uint32_t check_memory(const struct layout *layout, const uint8_t *memory, size_t memory_length);
uint32_t check_input(const struct layout *layout, const uint8_t *input, size_t input_length);

/* ---- storing.c ---- */

void start_cell(const struct layout *layout, unsigned cell, uint8_t *memory);

/* Stores the cells of all wires, kept ones and those of expressions; the finished values, all known, are the instant's. */
void store_cells(struct instant *instant);

#endif
