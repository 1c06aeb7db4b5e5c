/* The refusals of a tick before marks are stored (document 02, K9): 22 of the board, 1 to 11 of its sheets, 12 to 16 of memory and rows, with
 * their places counted through the board and with the order in which they are looked for. Rests on the words of boards and on the sheets at
 * the limits.
 */
#include "cases/boards.h"
#include "cases/limits.h"

/* ---- Boards ---- */

static const uint8_t meter[] = {METER};
_Static_assert(sizeof meter == 91, "the places of the rows are counted in 91 bytes");

#define METER_UP_TO(length) {meter, length}

/* The meter with its count and each byte of its lengths to be given; they are 3, 40 0, 19 0 and 25 0. */
#define FRAME(count, low_of_a, high_of_a, low_of_f, high_of_f, low_of_g, high_of_g) \
    BYTES(count, low_of_a, high_of_a, SHEET_A, low_of_f, high_of_f, SHEET_F, low_of_g, high_of_g, SHEET_G)

/* A sheet of 4,097 bytes, alone and behind another. */
static const uint8_t too_long[3 + 4097] = {1, 1, 16};
static const uint8_t too_long_second[24 + 4097] = {2, ON_BOARD(SHEET_F), 1, 16};

/* Eight sheets of 4,096 bytes; eight with 64 cells; eight with 16 inputs. */
static const uint8_t longest_board[] = {8, TIMES_8(ON_BOARD(LENGTH_4096))};
static const uint8_t longest_board_and_byte[] = {8, TIMES_8(ON_BOARD(LENGTH_4096)), 0};
_Static_assert(sizeof longest_board == 32785, "the longest board");
#define CELLS_512 8, TIMES_8(ON_BOARD(CELLS_64))
#define INPUTS_128 8, TIMES_8(ON_BOARD(INPUTS_16))
#define ROW_OF_15_BOOLEANS_AND_NUMBER TIMES_15(NUMBER(1)), GREATEST_NUMBER

/* L, whose second input is a number, and A: four inputs, two cells, three outputs. B, which is a loop, behind F. */
#define L_AND_A 2, ON_BOARD(SHEET_L), ON_BOARD(SHEET_A)
#define F_AND_B 2, ON_BOARD(SHEET_F), ON_BOARD(SHEET_B)

/* ---- Memory and rows of the meter ---- */

#define STARTED CELL(1, 0), CELL(1, 0), CELL(0, 0), CELL(0, 0)
#define INPUTS NUMBER(1), NUMBER(0), NUMBER(1)

/* Lengths that would pass if only their lower sixteen bits were looked at. */
static const uint8_t wrapping_memory[sixteen_bits + 20] = {STARTED};
static const uint8_t wrapping_input[sixteen_bits + 12] = {INPUTS};

/* ---- Words of these rows ---- */

/* Memory and rows have no part in what is refused of a board. */
#define REFUSED_BOARD(title, number, at, on) \
    {.name = title, .call = call_tick, .board = on, .state = MARKS(255, 255, 255, 0), .refused = number, .place = at}
#define REFUSED_METER(marks, title, number, at, before, inputs, length)                                                          \
    {.name = title, .call = call_tick, .board = BYTES(METER), .state = marks, .memory = before, .input = inputs,                 \
     .output_length = length, .refused = number, .place = at}
/* All are due; none is; only G is, and is restarted. */
#define ALL_DUE MARKS(7, 0, 0, 1)
#define NONE_DUE MARKS(0, 0, 0, 1)
#define G_RESTARTED MARKS(4, 4, 0, 1)

static const struct row rows[] = {
    REFUSED_BOARD("22: no count", 22, 0, NOTHING),
    REFUSED_BOARD("22: count 0 alone", 22, 0, BYTES(0)),
    REFUSED_BOARD("22: count 0 before sheets", 22, 0, FRAME(0, 40, 0, 19, 0, 25, 0)),
    REFUSED_BOARD("22: count 9 alone", 22, 0, BYTES(9)),
    REFUSED_BOARD("22: count 9 with nine sheets", 22, 0, BYTES(9, TIMES_8(ON_BOARD(SHEET_F)), ON_BOARD(SHEET_F))),
    REFUSED_BOARD("22: count 255", 22, 0, FRAME(255, 40, 0, 19, 0, 25, 0)),
    REFUSED_BOARD("22: count 131, whose lower bits are 3", 22, 0, FRAME(131, 40, 0, 19, 0, 25, 0)),
    REFUSED_BOARD("22: count 1 of 3", 22, 43, FRAME(1, 40, 0, 19, 0, 25, 0)),
    REFUSED_BOARD("22: count 2 of 3", 22, 64, FRAME(2, 40, 0, 19, 0, 25, 0)),
    REFUSED_BOARD("22: count 4 of 3", 22, 91, FRAME(4, 40, 0, 19, 0, 25, 0)),
    REFUSED_BOARD("22: count 8 of 3", 22, 91, FRAME(8, 40, 0, 19, 0, 25, 0)),

    REFUSED_BOARD("22: no first length", 22, 1, BYTES(1)),
    REFUSED_BOARD("22: the first length cut", 22, 1, BYTES(1, 0)),
    REFUSED_BOARD("22: the first length cut, of 8", 22, 1, BYTES(8, 19)),
    REFUSED_BOARD("22: the first sheet not there", 22, 1, BYTES(1, 19, 0)),
    REFUSED_BOARD("22: the first sheet a byte past the end", 22, 1, BYTES(1, 20, 0, SHEET_F)),
    REFUSED_BOARD("22: the first sheet 256 bytes past the end", 22, 1, BYTES(1, 19, 1, SHEET_F)),
    REFUSED_BOARD("22: the first sheet 65,535 bytes long", 22, 1, BYTES(1, 255, 255, SHEET_F)),
    REFUSED_BOARD("22: the first length with its bytes exchanged", 22, 1, BYTES(1, 0, 19, SHEET_F)),
    REFUSED_BOARD("22: the first length a byte less", 22, 42, FRAME(3, 39, 0, 19, 0, 25, 0)),
    REFUSED_BOARD("22: the first length a byte more", 22, 46, FRAME(3, 41, 0, 19, 0, 25, 0)),
    REFUSED_BOARD("22: the first length 0", 22, 7, FRAME(3, 0, 0, 19, 0, 25, 0)),
    REFUSED_BOARD("22: the first sheet up to the end", 22, 91, FRAME(3, 88, 0, 19, 0, 25, 0)),
    REFUSED_BOARD("22: the first sheet a byte past the end of 3", 22, 1, FRAME(3, 89, 0, 19, 0, 25, 0)),
    REFUSED_BOARD("22: the first length 256 more", 22, 1, FRAME(3, 40, 1, 19, 0, 25, 0)),

    REFUSED_BOARD("22: no second length", 22, 22, BYTES(2, ON_BOARD(SHEET_F))),
    REFUSED_BOARD("22: the second length cut", 22, 22, BYTES(2, ON_BOARD(SHEET_F), 19)),
    REFUSED_BOARD("22: the second length cut to 0", 22, 22, BYTES(2, ON_BOARD(SHEET_F), 0)),
    REFUSED_BOARD("22: the second sheet not there", 22, 22, BYTES(2, ON_BOARD(SHEET_F), 19, 0)),
    REFUSED_BOARD("22: the second length a byte less", 22, 63, FRAME(3, 40, 0, 18, 0, 25, 0)),
    REFUSED_BOARD("22: the second length a byte more", 22, 65, FRAME(3, 40, 0, 20, 0, 25, 0)),
    REFUSED_BOARD("22: the second sheet up to the end", 22, 91, FRAME(3, 40, 0, 46, 0, 25, 0)),
    REFUSED_BOARD("22: the second sheet a byte past the end", 22, 43, FRAME(3, 40, 0, 47, 0, 25, 0)),
    REFUSED_BOARD("22: the second length 256 more", 22, 43, FRAME(3, 40, 0, 19, 1, 25, 0)),
    REFUSED_BOARD("22: the last length a byte less", 22, 90, FRAME(3, 40, 0, 19, 0, 24, 0)),
    REFUSED_BOARD("22: the last length a byte more", 22, 64, FRAME(3, 40, 0, 19, 0, 26, 0)),
    REFUSED_BOARD("22: the last length 0", 22, 66, FRAME(3, 40, 0, 19, 0, 0, 0)),
    REFUSED_BOARD("22: the last length 256 more", 22, 64, FRAME(3, 40, 0, 19, 0, 25, 1)),
    REFUSED_BOARD("22: the eighth length cut", 22, 148, BYTES(8, TIMES_7(ON_BOARD(SHEET_F)), 7)),
    REFUSED_BOARD("22: no eighth length", 22, 148, BYTES(8, TIMES_7(ON_BOARD(SHEET_F)))),

    REFUSED_BOARD("22: the meter cut in its last sheet", 22, 64, METER_UP_TO(90)),
    REFUSED_BOARD("22: cut behind its last length", 22, 64, METER_UP_TO(66)),
    REFUSED_BOARD("22: cut in its last length", 22, 64, METER_UP_TO(65)),
    REFUSED_BOARD("22: cut before its last length", 22, 64, METER_UP_TO(64)),
    REFUSED_BOARD("22: cut in its second sheet", 22, 43, METER_UP_TO(63)),
    REFUSED_BOARD("22: cut in its second length", 22, 43, METER_UP_TO(44)),
    REFUSED_BOARD("22: cut before its second length", 22, 43, METER_UP_TO(43)),
    REFUSED_BOARD("22: cut in its first sheet", 22, 1, METER_UP_TO(42)),
    REFUSED_BOARD("22: cut in its first length", 22, 1, METER_UP_TO(2)),
    REFUSED_BOARD("22: cut before its first length", 22, 1, METER_UP_TO(1)),

    REFUSED_BOARD("22: a byte left over", 22, 91, BYTES(METER, 0)),
    REFUSED_BOARD("22: two bytes left over", 22, 22, BYTES(1, ON_BOARD(SHEET_F), 0, 0)),
    REFUSED_BOARD("22: a whole sheet left over", 22, 22, BYTES(1, ON_BOARD(SHEET_F), ON_BOARD(SHEET_F))),
    REFUSED_BOARD("22: left over behind a sheet of length 0", 22, 3, BYTES(1, 0, 0, 7)),
    REFUSED_BOARD("22: left over behind two sheets of length 0", 22, 5, BYTES(2, 0, 0, 0, 0, 0, 0)),
    REFUSED_BOARD("22: left over behind the longest board", 22, 32785, ALL_OF(longest_board_and_byte)),

    REFUSED_BOARD("22: a length cut, before 1", 22, 3, BYTES(2, 0, 0, 9)),
    REFUSED_BOARD("22: left over, before 2", 22, 8, BYTES(1, ON_BOARD(0, 1, 1, 1, 0), 0)),
    REFUSED_BOARD("22: past the end, before 3", 22, 4, BYTES(2, ON_BOARD(17), 1, 0)),
    REFUSED_BOARD("22: the count, before 9", 22, 0, BYTES(9, ON_BOARD(0, 1, 1, 1, 0, 0, 1))),
    REFUSED_BOARD("22: no third length, before 11", 22, 44, BYTES(3, ON_BOARD(SHEET_F), ON_BOARD(SHEET_F, 0))),

    REFUSED_BOARD("1: a sheet of length 0", 1, 3, BYTES(1, 0, 0)),
    REFUSED_BOARD("1: the first of length 0", 1, 3, BYTES(2, 0, 0, ON_BOARD(SHEET_F))),
    REFUSED_BOARD("1: the second of length 0", 1, 24, BYTES(2, ON_BOARD(SHEET_F), 0, 0)),
    REFUSED_BOARD("1: the second of length 0, a third behind", 1, 24, BYTES(3, ON_BOARD(SHEET_F), 0, 0, ON_BOARD(SHEET_F))),
    REFUSED_BOARD("1: eight of length 0", 1, 3, BYTES(8, TIMES_8(0, 0))),
    REFUSED_BOARD("1: a sheet of length 4097", 1, 3, ALL_OF(too_long)),
    REFUSED_BOARD("1: the second of length 4097", 1, 24, ALL_OF(too_long_second)),
    REFUSED_BOARD("2: no kind byte", 2, 8, BYTES(1, ON_BOARD(0, 1, 1, 1, 0))),
    REFUSED_BOARD("2: the first cut, bytes behind", 2, 9, BYTES(2, ON_BOARD(0, 1, 0, 1, 0, 0), ON_BOARD(SHEET_F))),
    REFUSED_BOARD("2: the first without wires, bytes behind", 2, 4, BYTES(2, ON_BOARD(0), ON_BOARD(SHEET_F))),
    REFUSED_BOARD("2: the second cut", 2, 29, BYTES(2, ON_BOARD(SHEET_F), ON_BOARD(0, 1, 1, 1, 0))),
    REFUSED_BOARD("3: the first", 3, 3, BYTES(1, ON_BOARD(17))),
    REFUSED_BOARD("3: the second", 3, 25, BYTES(2, ON_BOARD(SHEET_F), ON_BOARD(0, 65))),
    REFUSED_BOARD("4: the second", 4, 26, BYTES(2, ON_BOARD(SHEET_F), ON_BOARD(0, 1, 4))),
    REFUSED_BOARD("5: the second", 5, 28, BYTES(2, ON_BOARD(SHEET_F), ON_BOARD(0, 1, 1, 1, 1))),
    REFUSED_BOARD("6: the second", 6, 29, BYTES(2, ON_BOARD(SHEET_F), ON_BOARD(0, 1, 1, 1, 0, 20))),
    REFUSED_BOARD("7: the second names a wire that the first has", 7, 28, BYTES(2, ON_BOARD(SHEET_E), ON_BOARD(0, 1, 1, 1, 0, WIRE(1)))),
    REFUSED_BOARD("8: the second", 8, 45, BYTES(2, ON_BOARD(SHEET_F), ON_BOARD(0, 1, 1, 1, 0, TIMES_16(5), CONSTANT(9)))),
    REFUSED_BOARD("9: the second", 9, 29, BYTES(2, ON_BOARD(SHEET_F), ON_BOARD(0, 1, 1, 1, 0, ALWAYS))),
    REFUSED_BOARD("10: the second", 10, 346,
                  BYTES(2, ON_BOARD(SHEET_F), ON_BOARD(0, 64, TIMES_64(0), 1, 63, TIMES_63(15, 0, 0, 0), 15, 0, 15, 0, 0, 0))),
    REFUSED_BOARD("11: the first", 11, 22, BYTES(2, ON_BOARD(SHEET_F, 7), ON_BOARD(SHEET_F))),
    REFUSED_BOARD("11: the second", 11, 43, BYTES(2, ON_BOARD(SHEET_F), ON_BOARD(SHEET_F, 7))),
    REFUSED_BOARD("11: the eighth", 11, 157, BYTES(8, TIMES_7(ON_BOARD(SHEET_F)), ON_BOARD(SHEET_B, 7))),
    REFUSED_BOARD("11: the first, before 3 of the second", 11, 22, BYTES(2, ON_BOARD(SHEET_F, 7), ON_BOARD(17))),
    REFUSED_BOARD("11: the second, before 1 of the third", 11, 43, BYTES(3, ON_BOARD(SHEET_F), ON_BOARD(SHEET_F, 7), 0, 0)),
    REFUSED_BOARD("2: the first, before 2 of the second", 2, 8, BYTES(2, ON_BOARD(0, 1, 1, 1, 0), ON_BOARD(0, 1, 1, 1, 0))),
    TICK_REFUSED("11: the last, before 12, 14 and 16", 11, 43, BYTES(2, ON_BOARD(SHEET_F), ON_BOARD(SHEET_F, 7)), MARKS(0, 0, 0, 9),
                 BYTES(9), BYTES(9), 3),
    TICK_REFUSED("9: while none is due", 9, 29, BYTES(2, ON_BOARD(SHEET_F), ON_BOARD(0, 1, 1, 1, 0, ALWAYS)), MARKS(0, 0, 0, 0),
                 BYTES(CELL(0, 0)), NOTHING, 8),

    REFUSED_METER(ALL_DUE, "12: no memory", 12, 0, NOTHING, BYTES(INPUTS), 16),
    REFUSED_METER(ALL_DUE, "12: the first sheet's memory alone", 12, 0, BYTES(CELL(1, 0), CELL(1, 0)), BYTES(INPUTS), 16),
    REFUSED_METER(ALL_DUE, "12: a byte short", 12, 0, BYTES(CELL(1, 0), CELL(1, 0), CELL(0, 0), 0, 0, 0, 0), BYTES(INPUTS), 16),
    REFUSED_METER(ALL_DUE, "12: a cell more", 12, 0, BYTES(STARTED, CELL(0, 0)), BYTES(INPUTS), 16),
    REFUSED_METER(ALL_DUE, "12: sixteen bits more", 12, 0, ALL_OF(wrapping_memory), BYTES(INPUTS), 16),
    REFUSED_METER(ALL_DUE, "12: before 13", 12, 0, BYTES(CELL(9, 0), CELL(1, 0), CELL(0, 0)), BYTES(INPUTS), 16),
    REFUSED_METER(ALL_DUE, "12: before 14, 15 and 16", 12, 0, BYTES(CELL(1, 0)), BYTES(NUMBER(2)), 15),
    REFUSED_METER(NONE_DUE, "12: while none is due", 12, 0, BYTES(STARTED, 0), BYTES(INPUTS), 16),
    REFUSED_METER(G_RESTARTED, "12: at a restart", 12, 0, BYTES(CELL(1, 0), CELL(1, 0), CELL(0, 0)), BYTES(INPUTS), 16),
    TICK_REFUSED("12: a board without cells", 12, 0, BYTES(2, ON_BOARD(SHEET_E), ON_BOARD(SHEET_E)), MARKS(1, 0, 0, 0), BYTES(CELL(1, 0)),
                 NOTHING, 24),

    REFUSED_METER(ALL_DUE, "13: cell 0, a pre of A", 13, 0, BYTES(CELL(0, 0), CELL(1, 0), CELL(0, 0), CELL(0, 0)), BYTES(INPUTS), 16),
    REFUSED_METER(ALL_DUE, "13: cell 1, a pre of A", 13, 1, BYTES(CELL(1, 0), CELL(0, 0), CELL(0, 0), CELL(0, 0)), BYTES(INPUTS), 16),
    REFUSED_METER(ALL_DUE, "13: cell 2, the first of F", 13, 2, BYTES(CELL(1, 0), CELL(1, 0), CELL(0, 5), CELL(0, 0)), BYTES(INPUTS), 16),
    REFUSED_METER(ALL_DUE, "13: cell 3, the first of G", 13, 3, BYTES(CELL(1, 0), CELL(1, 0), CELL(0, 0), CELL(2, 0)), BYTES(INPUTS), 16),
    REFUSED_METER(ALL_DUE, "13: the lowest of two", 13, 1, BYTES(CELL(1, 0), CELL(2, 0), CELL(0, 0), CELL(2, 0)), BYTES(INPUTS), 16),
    REFUSED_METER(ALL_DUE, "13: the lowest of two behind A", 13, 2, BYTES(CELL(1, 0), CELL(1, 0), CELL(2, 0), CELL(2, 0)), BYTES(INPUTS), 16),
    REFUSED_METER(ALL_DUE, "13: in G, before 14 and 16", 13, 3, BYTES(CELL(1, 0), CELL(1, 0), CELL(0, 0), CELL(0, 1)), NOTHING, 0),
    REFUSED_METER(ALL_DUE, "13: in G, before 15 in A", 13, 3, BYTES(CELL(1, 0), CELL(1, 0), CELL(0, 0), CELL(0, 1)),
                  BYTES(NUMBER(2), NUMBER(0), NUMBER(0)), 16),
    REFUSED_METER(NONE_DUE, "13: while none is due", 13, 2, BYTES(CELL(1, 0), CELL(1, 0), CELL(0, 9), CELL(0, 0)), BYTES(INPUTS), 16),
    REFUSED_METER(G_RESTARTED, "13: in the sheet to be restarted", 13, 3, BYTES(CELL(1, 0), CELL(1, 0), CELL(0, 0), CELL(9, 9)),
                  BYTES(INPUTS), 16),
    REFUSED_METER(G_RESTARTED, "13: in another sheet than the one served", 13, 0, BYTES(CELL(0, 0), CELL(1, 0), CELL(0, 0), CELL(0, 0)),
                  BYTES(INPUTS), 16),
    TICK_REFUSED("13: the last of 512 cells", 13, 511, BYTES(CELLS_512), MARKS(1, 0, 0, 0),
                 BYTES(TIMES_7(TIMES_64(CELL(1, 1))), TIMES_63(CELL(1, 1)), CELL(1, 2)), NOTHING, 32),
    TICK_REFUSED("13: cell 256 of 512", 13, 256, BYTES(CELLS_512), MARKS(1, 0, 0, 0),
                 BYTES(TIMES_4(TIMES_64(CELL(1, 1))), CELL(0, 0), TIMES_63(CELL(1, 1)), TWICE(TIMES_64(CELL(1, 1))), TIMES_64(CELL(1, 2))),
                 NOTHING, 32),

    REFUSED_METER(ALL_DUE, "14: no inputs", 14, 0, BYTES(STARTED), NOTHING, 16),
    REFUSED_METER(ALL_DUE, "14: the first sheet's inputs alone", 14, 0, BYTES(STARTED), BYTES(NUMBER(1), NUMBER(0)), 16),
    REFUSED_METER(ALL_DUE, "14: a byte more, before 15", 14, 0, BYTES(STARTED), BYTES(NUMBER(2), NUMBER(0), NUMBER(0), 0), 16),
    REFUSED_METER(ALL_DUE, "14: before 16", 14, 0, BYTES(STARTED), BYTES(NUMBER(1), NUMBER(0)), 12),
    REFUSED_METER(ALL_DUE, "14: sixteen bits more", 14, 0, BYTES(STARTED), ALL_OF(wrapping_input), 16),
    REFUSED_METER(NONE_DUE, "14: while none is due", 14, 0, BYTES(STARTED), BYTES(NUMBER(1)), 16),
    REFUSED_METER(G_RESTARTED, "14: at a restart", 14, 0, BYTES(STARTED), BYTES(INPUTS, NUMBER(0)), 16),

    REFUSED_METER(ALL_DUE, "15: input 0, of A", 15, 0, BYTES(STARTED), BYTES(NUMBER(2), NUMBER(0), NUMBER(0)), 16),
    REFUSED_METER(ALL_DUE, "15: input 1, of A", 15, 1, BYTES(STARTED), BYTES(NUMBER(1), 0, 1, 0, 0, NUMBER(0)), 16),
    REFUSED_METER(ALL_DUE, "15: input 2, the first of G", 15, 2, BYTES(STARTED), BYTES(NUMBER(1), NUMBER(0), NUMBER(2)), 16),
    REFUSED_METER(ALL_DUE, "15: the lowest of two", 15, 1, BYTES(STARTED), BYTES(NUMBER(1), MINUS(1), MINUS(1)), 16),
    REFUSED_METER(ALL_DUE, "15: in G, before 16", 15, 2, BYTES(STARTED), BYTES(NUMBER(1), NUMBER(0), LEAST_NUMBER), 15),
    REFUSED_METER(NONE_DUE, "15: while none is due", 15, 2, BYTES(STARTED), BYTES(NUMBER(1), NUMBER(0), NUMBER(3)), 16),
    REFUSED_METER(G_RESTARTED, "15: in another sheet than the one served", 15, 0, BYTES(STARTED), BYTES(NUMBER(3), NUMBER(0), NUMBER(1)), 16),
    TICK_REFUSED("15: behind a number input", 15, 3, BYTES(L_AND_A), MARKS(1, 0, 0, 0), BYTES(CELL(1, 0), CELL(1, 0)),
                 BYTES(NUMBER(1), MINUS(5), NUMBER(1), NUMBER(2)), 12),
    TICK_REFUSED("15: the last Boolean of 128 inputs", 15, 126, BYTES(INPUTS_128), MARKS(1, 0, 0, 0), NOTHING,
                 BYTES(TIMES_7(ROW_OF_15_BOOLEANS_AND_NUMBER), TIMES_8(NUMBER(1)), TIMES_4(NUMBER(1)), TWICE(NUMBER(0)), NUMBER(2),
                       GREATEST_NUMBER), 32),

    REFUSED_METER(ALL_DUE, "16: no output", 16, 0, BYTES(STARTED), BYTES(INPUTS), 0),
    REFUSED_METER(ALL_DUE, "16: the first sheet's outputs alone", 16, 0, BYTES(STARTED), BYTES(INPUTS), 8),
    REFUSED_METER(ALL_DUE, "16: a byte short", 16, 0, BYTES(STARTED), BYTES(INPUTS), 15),
    REFUSED_METER(ALL_DUE, "16: an output more", 16, 0, BYTES(STARTED), BYTES(INPUTS), 20),
    REFUSED_METER(ALL_DUE, "16: sixteen bits more", 16, 0, BYTES(STARTED), BYTES(INPUTS), sixteen_bits + 16),
    REFUSED_METER(NONE_DUE, "16: while none is due", 16, 0, BYTES(STARTED), BYTES(INPUTS), 17),
    REFUSED_METER(G_RESTARTED, "16: at a restart", 16, 0, BYTES(STARTED), BYTES(INPUTS), 4),
    TICK_REFUSED("16: before 20", 16, 0, BYTES(F_AND_B), MARKS(2, 0, 0, 0), BYTES(CELL(0, 0)), NOTHING, 4),

    TICK("a number input may be anything", BYTES(L_AND_A), MARKS(1, 0, 0, 0), BYTES(CELL(1, 3), CELL(1, 4)),
         BYTES(NUMBER(1), GREATEST_NUMBER, NUMBER(1), NUMBER(0)), 6, SERVED(1, 0, 0, 0), BYTES(CELL(1, 3), CELL(1, 4)), 1, 0, 0, 128,
         TWICE(UNWRITTEN)),
    TICK("the last of 512 cells", BYTES(CELLS_512), MARKS(128, 0, 0, 0), BYTES(TIMES_8(TIMES_64(CELL(1, 1)))), NOTHING, 2,
         SERVED(128, 0, 0, 7), BYTES(TIMES_7(TIMES_64(CELL(1, 1))), TIMES_64(CELL(1, 0))), TIMES_7(UNWRITTEN), NUMBER(1)),
    TICK("the last of 128 inputs", BYTES(INPUTS_128), MARKS(128, 128, 0, 7), NOTHING, BYTES(TIMES_8(ROW_OF_15_BOOLEANS_AND_NUMBER)), 2,
         SERVED(128, 128, 0, 7), NOTHING, TIMES_7(UNWRITTEN), GREATEST_NUMBER),
    TICK("the last sheet of the longest board", ALL_OF(longest_board), MARKS(128, 0, 0, 255), NOTHING, NOTHING, 2, SERVED(128, 0, 0, 7),
         NOTHING, TIMES_7(TWICE(UNWRITTEN)), NUMBER(10), MINUS(10)),
};

const struct table cases_of_boards = TABLE(rows);
