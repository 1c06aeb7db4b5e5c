/* Random sheets that are correct by construction: the plan of a sheet, and the generator that writes a sheet by a plan and knows its
 * cells, its reads, its kinds 18 and its machines. Rests on random.h and buffer.h.
 */
#ifndef GENERATOR_SHEETS_H
#define GENERATOR_SHEETS_H

#include "generator/buffer.h"
#include "generator/random.h"

enum {
    most_inputs = 16,
    most_wires = 64,
    most_outputs = 16,
    most_cells = 64,
    most_cells_generated = 2 * most_cells,
    deepest_level = 16,
    longest_sheet = 4096
};

/* How the wires may read each other within the instant. */
enum reading {
    reading_backward, /* only wires of lower rank: a schedule exists */
    reading_mixed,    /* mostly so */
    reading_wild,     /* any wire */
    reading_two_way,  /* one arm or body by rising rank, the other by falling: cyclic, yet accepted */
    reading_by_input  /* one by rising rank, the other any wire: where input 0 does not hold, there may be loops */
};

/* What a kind 18 or a machine may stand under; an arm is that of an if or a present, a body that of a machine, and a condition any of theirs. */
enum above { above_pre, above_arm, above_condition, above_reset, above_left_of_fby, above_right_of_fby, above_body, aboves };

/* How a sheet is to be; the shares are in percent. Levels, cells and bytes may be above their limits, and then so is the sheet. */
struct plan {
    unsigned inputs; /* at least 1 for reading_two_way and reading_by_input */
    unsigned wires;
    unsigned outputs;
    unsigned deepest;
    unsigned cells_wanted;
    unsigned cell_share;    /* of the expressions with operands: pres and fbys, while there are fewer cells than wanted */
    unsigned machine_share; /* of the others, likewise */
    unsigned kept_share;    /* of the wires; with 0 there are no kept wires and no kinds 18 */
    unsigned leaf_share;    /* of the expressions above the deepest level */
    unsigned last_share;    /* of the leaves: kinds 18 */
    unsigned stray_share;   /* of these: they name any wire, there or not, which mostly breaks a rule */
    unsigned wild_share;    /* of the readings, for reading_mixed */
    unsigned wire_share;    /* of the other leaves */
    unsigned wire_bytes;    /* an expression comes to its end behind so many bytes */
    size_t sheet_bytes;     /* and every expression does behind so many */
    bool spine;             /* every wire's expression reaches the deepest level */
    bool chain;             /* wires like to read the wire of the next lower rank: many rounds */
    enum reading reading;
};

/* Set to zero but for its first three before a sheet is generated. */
struct generator {
    struct random *random;
    struct buffer *sheet;
    struct plan plan;
    unsigned wire;
    size_t wire_end; /* where this wire's expression should come to its end */
    bool falling;
    bool too_deep;
    bool strayed; /* a kind 18 names a wire that it may not */
    uint8_t input_types[most_inputs];
    uint8_t wire_types[most_wires]; /* without what says that they are kept */
    bool kept[most_wires];
    unsigned kept_to_come; /* kept wires whose expression is not begun: their cells count already */
    uint8_t rank[most_wires];
    uint8_t wire_of_rank[most_wires];
    unsigned cells;
    uint8_t cell_kind[most_cells_generated]; /* 18 for that of a kept wire */
    uint8_t cell_type[most_cells_generated];
    unsigned kept_cell[most_wires];
    uint64_t reads[most_wires];
    uint64_t lasts[most_wires]; /* the wires that its kinds 18 name */
    unsigned machines;
    unsigned above;          /* what the expression at hand stands under, one bit for each */
    unsigned above_inputs;   /* what any input stands under */
    unsigned above_lasts;    /* what any kind 18 stands under */
    unsigned above_machines; /* what any machine stands under */
};

void choose_plan(struct random *random, struct plan *plan);

/* Makes the generator ready for a sheet, with a plan drawn at random. */
void prepare_generator(struct generator *generator, struct random *random, struct buffer *sheet);

/* Answers whether the sheet keeps all the rules, so that the check has to accept it. */
bool generate_sheet(struct generator *generator);

#endif
