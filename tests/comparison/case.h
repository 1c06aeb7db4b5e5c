/* What a case of the comparison works with, and the steps that a case is made of, each in a file of its own. Rests on the harness and
 * the generator.
 */
#ifndef COMPARISON_CASE_H
#define COMPARISON_CASE_H

#include "comparison/harness.h"
#include "generator/boards.h"
#include "generator/pairs.h"
#include "generator/sheets.h"

/* A sheet with what is known of it. */
struct subject {
    struct generator generator;
    bool as_generated;     /* undamaged and within the limits: the generator's knowledge holds */
    bool without_schedule; /* as generated, and reading in a circle */
    bool passed_check;     /* the check, and the rest below is set */
    bool with_kept;        /* some wire is kept */
    unsigned inputs;
    unsigned wires;
    unsigned outputs;
    unsigned cells;
    unsigned depth; /* the greatest of its wires, 0 where the sheet has no schedule */
    const uint8_t *input_types;
};

/* Kept out of the stack because the buffers are large. The sheet stands in "given"; the other buffers are for each step to fill. */
struct workspace {
    struct subject subject;
    struct buffers given;
    struct buffers previewed;
    struct buffers by_rounds;
    struct buffers by_schedule;
    struct board board;
    struct buffers ticked;
    struct buffers tried;
    struct board pair;
    struct buffers joining;                     /* the join, then what the joined sheet is given */
    struct buffers alone[sheets_of_pair];       /* what each of the two sheets is given by itself */
    struct buffers alone_after[sheets_of_pair]; /* and what an instant leaves */
};

/* A step of a case, made behind the check of its sheet; it does nothing where the sheet is not one for it. */
typedef void step(struct harness *harness, struct workspace *workspace);

/* refused_sheets.c: a refused sheet is refused by all calls, whatever the other buffers are. */
step compare_refused_sheet;

/* instants.c: the start, and instants both ways from memory to memory, each previewed, with K3 and demand 3 between them. */
step compare_instants;

/* maker.c: a schedule is asked for, also of a refused sheet, and must be there by what is known of the reads; an instant goes along it. */
step compare_maker;

/* One case in so many has a board, and one in so many of these its frame changed. */
enum { cases_for_board = 50, cases_for_frames = 100 * cases_for_board };

/* boards.c: now and then a board, whatever the sheet is: ticks that hand on memory, marks and number, some tried with damage first. */
step compare_board;

/* frames.c: now and then the board of the step before, with its count and each byte of its lengths changed to every value, cut at every
 * place and made longer. */
step compare_frames;

/* One case in so many has a pair of sheets. */
enum { cases_for_pair = 10 };

/* joining.c: now and then a pair of sheets, whatever the sheet is: joined, with a buffer of every length, some damaged first. */
step compare_joining;

/* ---- instants.c, for other steps too ---- */

/* Leaves the starting memory in "given". */
void compare_start(struct harness *harness, struct workspace *workspace);

/* The preview and both instants from the memory, input row and list in "given". Answers whether the rounds are accepted. */
bool compare_instant(struct harness *harness, struct workspace *workspace, bool list_passes);

/* ---- kept.c ---- */

/* Of a sheet whose header passed. */
bool has_kept_wire(const uint8_t *sheet);

/* Counts what the answer of the check, of the rounds and of an instant accepted along the list in "given" means for kept wires; and demands
 * that accepted rounds, whose memory is that of "by_rounds", have stored their values. */
void note_check_of_kept(struct harness *harness, const struct workspace *workspace, uint32_t answer);
void note_rounds_of_kept(struct harness *harness, const struct workspace *workspace, uint32_t rounds);
void note_list_of_kept(struct harness *harness, const struct workspace *workspace);

/* The starting memory is in "given". */
void demand_kept_start(struct harness *harness, const struct workspace *workspace);

/* ---- machines.c ---- */

/* Counts what the answer of the check, of the rounds and of an instant accepted along a list means for machines. */
void note_check_of_machines(struct harness *harness, const struct workspace *workspace, uint32_t answer);
void note_rounds_of_machines(struct harness *harness, const struct workspace *workspace, uint32_t rounds);
void note_list_of_machines(struct harness *harness, const struct workspace *workspace);

/* The starting memory is in "given". */
void demand_machine_start(struct harness *harness, const struct workspace *workspace);

/* ---- damaged_boards.c ---- */

/* The tick of "board" that stands in "given", with something damaged; "given" stays as it is. */
void compare_damaged_tick(struct harness *harness, struct workspace *workspace);

/* ---- joined_sheets.c ---- */

/* The joined sheet that "joining" has, beside the two sheets of "pair": its start, and instants both ways. */
void compare_joined_sheet(struct harness *harness, struct workspace *workspace);

/* ---- ends.c ---- */

/* So many pairs of numbers at and near the ends, each in an instant both ways. Answers whether results of every sort were met. */
bool compare_pairs(struct harness *harness, struct workspace *workspace, unsigned long pairs);

#endif
