/* What the files of careful C share: the shapes of the kinds, the nodes of a sheet, and what an instant has at hand. Rests on the
 * format in numbers.
 */
#ifndef CAREFUL_INTERNAL_H
#define CAREFUL_INTERNAL_H

#include "common/format.h"

#include <stdbool.h>

/* How an expression stands: its level in the lowest five bits, whether it is delayed, that is under a pre or on the right of an fby, which
 * link of its parent is to lead to it, where a first operand needs none; and the type asked of it, above what a node keeps of this. A fourth
 * operand, which only a machine has, has the bit of the third without that of a link. */
enum {
    level_bits = 31,
    delayed_shift = 5,
    delayed_bit = 1 << delayed_shift,
    third_shift = 6,
    third_bit = 1 << third_shift,
    linked_shift = 7,
    linked_bit = 1 << linked_shift,
    fourth_bits = third_bit,
    number_shift = 8,
    number_bit = 1 << number_shift
};

/* The types that an expression may have, one bit for each, stand in a table that begins with these; inputs, wires and the lasts of wires
 * have the entries behind, in order. A Boolean constant has two entries because its body is taken for a name. The last of a wire that is
 * not kept has no type. */
enum {
    type_boolean = 0,
    type_number = 2,
    type_either = 3,
    type_input = 4,
    type_wire = type_input + most_inputs,
    type_last = type_wire + most_wires,
    types = type_last + most_wires,
    kept_bit = 4 /* beside the type of a wire that is kept */
};

/* What is fixed of a kind. Of each operand, the last one first, there are the bits that are fixed and those that it takes over. */
struct shape {
    uint8_t bytes; /* kind byte and body */
    uint8_t operands;
    uint8_t owns_cell;
    uint8_t type;
    uint8_t name_mask; /* of a body of one byte */
    uint16_t fixed[3];
    uint16_t taken[3];
    uint32_t body_mask;
};

/* An expression. Its first operand is the node behind it. */
struct node {
    uint8_t kind;
    uint8_t standing;
    uint8_t first_cell; /* its cells, operands and all: from this one */
    uint8_t end_cell;   /* to before this one */
    union {
        uint32_t number;  /* of a leaf or a pre: the constant, or the wire or input that it names */
        uint16_t link[2]; /* of others: where the second operand stands and where the third, counted from here */
    } is;
};

/* What the reading of a sheet finds out. The node 0 is no expression: it takes the links that nobody needs. */
struct program {
    size_t length;
    size_t place;
    const uint8_t *output_wires;
    unsigned inputs;
    unsigned wires;
    unsigned outputs;
    unsigned cells;
    bool some_kept;
    bool some_machine;
    uint64_t kept;       /* one bit for each wire */
    unsigned cell_limit; /* where some are kept, what the cells stay within: those of kept wires to come take up the rest */
    struct node *end;    /* of the nodes read so far */
    uint8_t types[types];
    uint8_t name_limit[kinds]; /* what a body of one byte stays below */
    struct node *wire_node[most_wires + 1];
    uint64_t wire_reads[most_wires]; /* within the instant, one bit for each wire */
    uint16_t kept_place[most_wires]; /* where the memory has the cell of a wire that is kept */
    const struct node *cell_node[most_cells + 1];
    uint8_t cell_type[most_cells + 1];
    uint8_t sheet[longest_sheet + 8]; /* a copy, and bytes that are no kinds: so a body may be read before it is seen to be cut */
    struct node node[1 + longest_sheet];
    uint16_t fourth[most_cells]; /* where the fourth operand of the machine that owns a cell stands, counted from the machine */
};

/* What an instant has at hand. A wire's number counts only where the wire is known. */
struct instant {
    const struct program *program;
    const uint8_t *memory;
    uint8_t *next_memory; /* the same bytes, where they are to be stored */
    uint64_t known;
    uint32_t wires[most_wires];
    uint32_t inputs[most_inputs];
};

/* ---- reading.c ---- */

/* Reads a sheet into nodes; answers a refusal 1 to 11, or 0. */
uint32_t read_program(struct program *program, const uint8_t *sheet, size_t length);

/* The same, and each wire is told its reads, which else is done with the links. */
uint32_t read_program_and_reads(struct program *program, const uint8_t *sheet, size_t length);

/* Links the nodes to their operands, tells each of them its cells and each wire its reads. */
void link_nodes(struct program *program);

/* ---- values.c ---- */

/* The number of an expression whose reads are all known: then nothing is unknown, and an arm that is not chosen need not be worked out.
 * There is a function for each kind. */
typedef uint32_t number_function(const struct instant *instant, const struct node *node, bool fresh);

/* A value that may be unknown: a known one has this bit above its number, and what stands below an unknown one's is nothing. */
#define KNOWN (UINT64_C(1) << 32)

typedef uint64_t value_function(const struct instant *instant, const struct node *node, bool fresh);

/* By the kind; a wire has none, see below. */
extern number_function *const number_functions[kinds];
extern value_function *const value_functions[kinds];

/* A wire is what is met most: it takes no call. */
static inline uint32_t number_of(const struct instant *instant, const struct node *node, bool fresh)
{
    if (node->kind == kind_wire)
        return instant->wires[node->is.number];
    return number_functions[node->kind](instant, node, fresh);
}

static inline uint64_t value_of(const struct instant *instant, const struct node *node, bool fresh)
{
    if (node->kind == kind_wire)
        return (instant->known >> node->is.number & 1) << 32 | instant->wires[node->is.number];
    return value_functions[node->kind](instant, node, fresh);
}

static inline bool is_known(uint64_t value)
{
    return (value & KNOWN) != 0;
}

static inline const struct node *second_of(const struct node *node)
{
    return node + node->is.link[0];
}

static inline const struct node *third_of(const struct node *node)
{
    return node + node->is.link[1];
}

static inline const struct node *fourth_of(const struct program *program, const struct node *node)
{
    return node + program->fourth[node->first_cell];
}

/* ---- A machine ---- */

/* The state in which the instant finds it: the first, whatever the cell holds, where the whole is fresh. */
static inline bool second_state(const struct instant *instant, const struct node *node, bool fresh)
{
    return !fresh && instant->memory[bytes_of_cell * node->first_cell + 1] != 0;
}

static inline const struct node *condition_of(const struct node *node, bool second)
{
    return second ? second_of(node) : node + 1;
}

static inline const struct node *body_of(const struct program *program, const struct node *node, bool second)
{
    return second ? fourth_of(program, node) : third_of(node);
}

/* ---- Memory and rows ---- */

/* Refusal 13 of a memory that has the cells of the program, or 0. */
static inline uint32_t check_cells(const struct program *program, const uint8_t *memory)
{
    for (unsigned cell = 0; cell < program->cells; cell++) {
        const uint8_t *const bytes = memory + bytes_of_cell * cell;
        const bool is_fby = program->cell_node[cell]->kind == kind_fby;
        const uint32_t greatest = bytes[0] == 0 ? 0 : program->cell_type[cell] == 0 ? 1 : UINT32_MAX;
        if (bytes[0] > 1 || (bytes[0] == 0 && !is_fby) || read_number(bytes + 1) > greatest)
            return refusal(13, cell);
    }
    return 0;
}

/* Refusal 15 of a row that has the inputs of the program, or 0. Takes the numbers out of the row on the way. */
static inline uint32_t take_inputs(const struct program *program, const uint8_t *input, uint32_t *numbers)
{
    for (unsigned index = 0; index < program->inputs; index++) {
        numbers[index] = read_number(input + bytes_of_number * index);
        if (numbers[index] > 1 && program->types[type_input + index] == 1)
            return refusal(15, index);
    }
    return 0;
}

/* ---- instants.c ---- */

/* Links the program, and gives the instant what it has at hand but the inputs, which it has already. */
void begin_instant(struct instant *instant, struct program *program, const uint8_t *memory);

/* Rounds until one changes nothing, then the output row and, where there is one, the next memory, which is the instant's own; refused 20,
 * nothing is written. */
uint32_t make_rounds(struct instant *instant, uint8_t *next_memory, uint8_t *output);

/* Checks 1 to 16, and begins the instant. */
uint32_t prepare(struct program *program, struct instant *instant, const uint8_t *sheet, size_t sheet_length, const uint8_t *memory,
                 size_t memory_length, const uint8_t *input, size_t input_length, size_t output_length);

/* ---- loops.c ---- */

static inline unsigned lowest_of(uint64_t wires)
{
    return (unsigned)__builtin_ctzll(wires);
}

/* The lowest of these wires that leads to itself in one or more steps, where each wire leads to those of its set. There must be one. */
unsigned lowest_looping(const uint64_t *sets, uint64_t wires);

/* ---- waiting.c ---- */

/* The lowest wire that waits for itself, directly or through others; these are the unknown wires, of which there must be one. */
unsigned lowest_waiting(const struct instant *instant, uint64_t unknown);

/* ---- rounds.c ---- */

/* Where the rounds of an instant are. */
struct rounds {
    uint64_t unknown;
    uint64_t due; /* in the next round */
    uint32_t made;
    uint64_t readers[most_wires]; /* of each wire, one bit for each */
};

/* Before the first round every wire is unknown. */
void begin_rounds(struct instant *instant, struct rounds *rounds);

/* Makes a round, and says whether it made a wire known. */
bool make_round(struct instant *instant, struct rounds *rounds);

/* ---- storing.c ---- */

/* Starts the cells from the first one to before the end. */
void start_cells(const struct program *program, uint8_t *memory, unsigned first, unsigned end);

/* Stores the cells of all wires, kept ones and those of expressions; the numbers, all finished, are the instant's. */
void store_wires(const struct instant *instant);

#endif
