/* Two sheets into one (document 02, K10): the joined bytes, and the refusals of the first sheet, of the second, of what they have together
 * and of the buffer, with the order in which they are looked for. Rests on the words of joins and on the sheets at the limits.
 */
#include "cases/chains.h"
#include "cases/joins.h"

/* ---- Limits ---- */

#define INPUTS_8 8, TIMES_8(0), 1, 0, 1, 0, INPUT(7)
#define INPUTS_9 9, TIMES_8(0), 1, 1, 1, 1, 0, INPUT(8)
#define INPUTS_1 1, 0, 1, 0, 1, 0, INPUT(0)

#define FROM_0_TO_7 0, 1, 2, 3, 4, 5, 6, 7
#define FROM_8_TO_15 8, 9, 10, 11, 12, 13, 14, 15
#define OUTPUTS_8 0, 8, TIMES_8(0), 8, FROM_0_TO_7, TIMES_8(ALWAYS)
#define OUTPUTS_9 0, 9, TIMES_8(0), 0, 9, FROM_0_TO_7, 8, TIMES_8(ALWAYS), NEVER
#define OUTPUTS_16 0, 16, TIMES_16(0), 16, FROM_0_TO_7, FROM_8_TO_15, TIMES_16(ALWAYS)
/* Fifteen of seventeen wires, beginning with wire 2. */
#define OUTPUTS_15 0, 17, TIMES_16(0), 0, 15, 2, 3, 4, 5, 6, 7, FROM_8_TO_15, 16, TIMES_16(ALWAYS), WIRE(16)

/* Thirty-two wires of sums, together 2,013, 2,014 and 2,015 bytes behind a header of 36. */
#define LONG_HALF 0, 32, TIMES_32(1), 1, 31
#define TWENTY_TWO_OF_62 TIMES_16(WIRE_OF_62), TIMES_4(WIRE_OF_62), TWICE(WIRE_OF_62)
#define SUMS_2013 TIMES_8(WIRE_OF_65), WIRE_OF_65, 5, 5, WIRE_OF_62, TWENTY_TWO_OF_62
#define SUMS_2014 TIMES_8(WIRE_OF_65), TWICE(WIRE_OF_65), TWENTY_TWO_OF_62
#define SUMS_2015 TIMES_8(WIRE_OF_65), TWICE(WIRE_OF_65), 5, TWENTY_TWO_OF_62
static const uint8_t length_2049[] = {LONG_HALF, SUMS_2013};
static const uint8_t length_2050[] = {LONG_HALF, SUMS_2014};
static const uint8_t length_2051[] = {LONG_HALF, SUMS_2015};
_Static_assert(sizeof length_2049 == 2049 && sizeof length_2050 == 2050 && sizeof length_2051 == 2051, "halves of 4,096 bytes and 3");

/* Sixty-three wires of sums: with the shortest sheet 4,096 and 4,097 bytes. */
#define LONG_WHOLE 0, 63, TIMES_63(1), 1, 0
#define THIRTY_NINE_OF_65 TIMES_32(WIRE_OF_65), TIMES_7(WIRE_OF_65)
#define TWENTY_THREE_OF_62 TIMES_16(WIRE_OF_62), TIMES_7(WIRE_OF_62)
#define SUMS_4025 THIRTY_NINE_OF_65, 5, 5, WIRE_OF_62, TWENTY_THREE_OF_62
#define SUMS_4026 THIRTY_NINE_OF_65, 5, 5, 5, WIRE_OF_62, TWENTY_THREE_OF_62
static const uint8_t length_4092[] = {LONG_WHOLE, SUMS_4025};
static const uint8_t length_4093[] = {LONG_WHOLE, SUMS_4026};
_Static_assert(sizeof length_4092 == 4092 && sizeof length_4093 == 4093, "4,096 bytes and 3 less the shortest sheet, and one more");

static const uint8_t longest[] = {LENGTH_4096};
static const uint8_t too_long[] = {LENGTH_4096, 0};
#define LONGEST_BUT_A_BYTE {longest, sizeof longest - 1}

/* ---- Words of these rows ---- */

/* Joins of A and F, whose joined sheet has 56 bytes, into a buffer of another length. */
#define A_AND_F_LENT(title, length) JOIN_REFUSED(title, 16, 0, BYTES(SHEET_A), BYTES(SHEET_F), length)

/* F, with which the joined sheet would have the length, behind or before a sheet that is refused. */
#define FIRST_BEFORE_F(title, number, at, ...) \
    JOIN_REFUSED(title, number, at, BYTES(__VA_ARGS__), BYTES(SHEET_F), LENGTH_OF(__VA_ARGS__) + 16)
#define SECOND_BEHIND_F(title, number, at, ...) \
    SECOND_REFUSED(title, number, at, BYTES(SHEET_F), BYTES(__VA_ARGS__), LENGTH_OF(__VA_ARGS__) + 16)

static const struct row rows[] = {
    JOINED("the shortest twice", BYTES(SHORTEST), BYTES(SHORTEST), 0, 2, 0, 0, 2, 0, 1, ALWAYS, ALWAYS),
    JOINED("A and F", BYTES(SHEET_A), BYTES(SHEET_F), A_AND_F),
    JOINED("F and A: wires shifted", BYTES(SHEET_F), BYTES(SHEET_A), F_AND_A),
    JOINED("A and A: wires and inputs shifted", BYTES(SHEET_A), BYTES(SHEET_A), A_AND_A),
    JOINED("A and G: inputs shifted", BYTES(SHEET_A), BYTES(SHEET_G), A_AND_G),
    JOINED("G and A: inputs and wires by different counts", BYTES(SHEET_G), BYTES(SHEET_A), G_AND_A),
    JOINED("A and L: inputs of both types", BYTES(SHEET_A), BYTES(SHEET_L), A_AND_L),
    JOINED("L and A: an output that is not wire 0", BYTES(SHEET_L), BYTES(SHEET_A), L_AND_A),
    JOINED("E and F", BYTES(SHEET_E), BYTES(SHEET_F), E_AND_F),
    JOINED("F and E", BYTES(SHEET_F), BYTES(SHEET_E), F_AND_E),
    JOINED("F and F", BYTES(SHEET_F), BYTES(SHEET_F), F_AND_F),
    JOINED("F and F, and F", BYTES(F_AND_F), BYTES(SHEET_F), F_AND_F_AND_F),
    JOINED("F, and F and F", BYTES(SHEET_F), BYTES(F_AND_F), F_AND_F_AND_F),
    JOINED("B and F: a loop", BYTES(SHEET_B), BYTES(SHEET_F), B_AND_F),
    JOINED("F and B", BYTES(SHEET_F), BYTES(SHEET_B), F_AND_B),
    JOINED("B and B", BYTES(SHEET_B), BYTES(SHEET_B), B_AND_B),

    JOINED("kept: a counter twice", BYTES(COUNTER), BYTES(COUNTER), COUNTER_AND_COUNTER),
    JOINED("kept: a Boolean, then a number", BYTES(FLAG), BYTES(COUNTER), FLAG_AND_COUNTER),
    JOINED("kept: a number, then a Boolean", BYTES(COUNTER), BYTES(FLAG), COUNTER_AND_FLAG),
    JOINED("kept: behind A", BYTES(SHEET_A), BYTES(FLAG), A_AND_FLAG),
    JOINED("machine: twice", BYTES(RELAY), BYTES(RELAY), RELAY_AND_RELAY),
    JOINED("machine: behind A", BYTES(SHEET_A), BYTES(RELAY), A_AND_RELAY),
    JOINED("machine: before a counter", BYTES(RELAY), BYTES(COUNTER), RELAY_AND_COUNTER),
    JOINED("every place: behind A", BYTES(SHEET_A), BYTES(EVERY_PLACE), A_AND_EVERY_PLACE),
    JOINED("every place: before A", BYTES(EVERY_PLACE), BYTES(SHEET_A), EVERY_PLACE_AND_A),
    JOINED("every place: twice", BYTES(EVERY_PLACE), BYTES(EVERY_PLACE), EVERY_PLACE_TWICE),
    JOINED("an input under a pre", BYTES(SHEET_A), BYTES(1, 0, 1, 0, 1, 0, 15, 0, INPUT(0)), 3, 0, 0, 0, 3, 1, 1, 0, 3, 0, 1, 2,
           OF_A(0, 1, 0), 15, 0, INPUT(2)),
    JOINED("an input under a pre of a number", BYTES(SHEET_A), BYTES(1, 1, 1, 1, 1, 0, 16, NUMBER(3), INPUT(0)), 3, 0, 0, 1, 3, 1, 1, 1,
           3, 0, 1, 2, OF_A(0, 1, 0), 16, NUMBER(3), INPUT(2)),
    JOINED("a wire under a pre under a pre", BYTES(SHEET_F), BYTES(0, 1, 1, 1, 0, 16, NUMBER(2), 16, NUMBER(2), WIRE(0)), 0, 2, 1, 1, 2,
           0, 1, OF_F(0), 16, NUMBER(2), 16, NUMBER(2), WIRE(1)),
    JOINED("left and right of an fby", BYTES(SHEET_G), BYTES(1, 1, 1, 1, 1, 0, 17, INPUT(0), INPUT(0)), 2, 0, 1, 2, 1, 1, 2, 0, 1,
           OF_G(0), 17, INPUT(1), INPUT(1)),
    JOINED("a last under a pre", BYTES(SHEET_F), BYTES(0, 1, 2, 1, 0, 15, 1, LAST(0)), 0, 2, 1, 2, 2, 0, 1, OF_F(0), 15, 1, LAST(1)),
    JOINED("constants are left as they are", BYTES(SHEET_A), BYTES(CONSTANTS), A_AND_CONSTANTS),
    JOINED("inputs in the first alone", BYTES(SHEET_G), BYTES(SHEET_B), 1, 0, 2, 1, 1, 2, 0, 1, OF_G(0), WIRE(1)),
    JOINED("inputs in the second alone", BYTES(SHEET_B), BYTES(SHEET_G), 1, 0, 2, 1, 1, 2, 0, 1, WIRE(0), OF_G(0)),
    JOINED("level 16 in both", BYTES(0, 1, 1, 1, 0, TIMES_15(5), WIRE(0)), BYTES(0, 1, 1, 1, 0, TIMES_15(5), WIRE(0)), 0, 2, 1, 1, 2, 0, 1,
           TIMES_15(5), WIRE(0), TIMES_15(5), WIRE(1)),

    JOINED("16 inputs: 8 and 8", BYTES(INPUTS_8), BYTES(INPUTS_8), 16, TIMES_16(0), 2, 0, 0, 2, 0, 1, INPUT(7), INPUT(15)),
    JOINED("16 inputs: 16 and none", BYTES(INPUTS_16), BYTES(SHORTEST), 16, TIMES_15(0), 1, 2, 1, 0, 2, 0, 1, INPUT(15), ALWAYS),
    JOINED("16 inputs: none and 16", BYTES(SHORTEST), BYTES(INPUTS_16), 16, TIMES_15(0), 1, 2, 0, 1, 2, 0, 1, ALWAYS, INPUT(15)),
    JOIN_REFUSED("23: 9 and 8 inputs", 23, 0, BYTES(INPUTS_9), BYTES(INPUTS_8), 28),
    JOIN_REFUSED("23: 8 and 9 inputs", 23, 0, BYTES(INPUTS_8), BYTES(INPUTS_9), 28),
    JOIN_REFUSED("23: 16 inputs and 1", 23, 0, BYTES(INPUTS_16), BYTES(INPUTS_1), 28),
    JOIN_REFUSED("23: 1 input and 16", 23, 0, BYTES(INPUTS_1), BYTES(INPUTS_16), 28),
    JOIN_REFUSED("23: 16 inputs and 16", 23, 0, BYTES(INPUTS_16), BYTES(INPUTS_16), 43),
    JOINED("64 wires: 32 and 32", BYTES(WIRES_32), BYTES(WIRES_32), 0, 64, TIMES_64(1), 2, 31, 63, THIRTY_ONE_SEVENS, WIRE(0),
           THIRTY_ONE_SEVENS, WIRE(32)),
    JOINED("64 wires: 63 and 1", BYTES(WIRES_63), BYTES(SHORTEST), 0, 64, TIMES_63(1), 0, 2, 62, 63, TIMES_63(WIRE(62)), ALWAYS),
    JOINED("64 wires: 1 and 63", BYTES(SHORTEST), BYTES(WIRES_63), 0, 64, 0, TIMES_63(1), 2, 0, 63, ALWAYS, TIMES_63(WIRE(63))),
    JOIN_REFUSED("23: 33 and 32 wires", 23, 0, BYTES(WIRES_33), BYTES(WIRES_32), 389),
    JOIN_REFUSED("23: 32 and 33 wires", 23, 0, BYTES(WIRES_32), BYTES(WIRES_33), 389),
    JOIN_REFUSED("23: 64 wires and 1", 23, 0, BYTES(CHAIN_OF_64), BYTES(SHORTEST), 203),
    JOIN_REFUSED("23: 1 wire and 64", 23, 0, BYTES(SHORTEST), BYTES(CHAIN_OF_64), 203),
    JOIN_REFUSED("23: 64 wires and 64", 23, 0, BYTES(CHAIN_OF_64), BYTES(CHAIN_OF_64), 395),
    JOINED("16 outputs: 8 and 8", BYTES(OUTPUTS_8), BYTES(OUTPUTS_8), OUTPUTS_16),
    JOINED("16 outputs: 15 and 1", BYTES(OUTPUTS_15), BYTES(SHORTEST), 0, 18, TIMES_16(0), 0, 0, 16, 2, 3, 4, 5, 6, 7, FROM_8_TO_15, 16,
           17, TIMES_16(ALWAYS), WIRE(16), ALWAYS),
    JOINED("16 outputs: 1 and 15", BYTES(SHORTEST), BYTES(OUTPUTS_15), 0, 18, TIMES_16(0), 0, 0, 16, 0, 3, 4, 5, 6, 7, FROM_8_TO_15, 16,
           17, ALWAYS, TIMES_16(ALWAYS), WIRE(17)),
    JOIN_REFUSED("23: 9 and 8 outputs", 23, 0, BYTES(OUTPUTS_9), BYTES(OUTPUTS_8), 71),
    JOIN_REFUSED("23: 8 and 9 outputs", 23, 0, BYTES(OUTPUTS_8), BYTES(OUTPUTS_9), 71),
    JOIN_REFUSED("23: 16 outputs and 1", 23, 0, BYTES(OUTPUTS_16), BYTES(SHORTEST), 71),
    JOIN_REFUSED("23: 1 output and 16", 23, 0, BYTES(SHORTEST), BYTES(OUTPUTS_16), 71),
    JOINED("64 cells: 32 and 32", BYTES(CELLS_32), BYTES(CELLS_32), 0, 8, TIMES_8(0), 2, 3, 7, TIMES_8(EIGHT_CELLS)),
    JOINED("64 cells: 64 and none", BYTES(CELLS_64_OF_8), BYTES(SHORTEST), 0, 9, TIMES_8(0), 0, 2, 7, 8, TIMES_8(EIGHT_CELLS), ALWAYS),
    JOINED("64 cells: none and 64", BYTES(SHORTEST), BYTES(CELLS_64_OF_8), 0, 9, TIMES_8(0), 0, 2, 0, 8, ALWAYS, TIMES_8(EIGHT_CELLS)),
    JOIN_REFUSED("23: 32 and 33 cells", 23, 0, BYTES(CELLS_32), BYTES(CELLS_33), 159),
    JOIN_REFUSED("23: 33 and 32 cells", 23, 0, BYTES(CELLS_33), BYTES(CELLS_32), 159),
    JOIN_REFUSED("23: 64 cells and that of a kept wire", 23, 0, BYTES(CELLS_64_OF_8), BYTES(KEPT_CELL), 160),
    JOIN_REFUSED("23: that of a kept wire and 64 cells", 23, 0, BYTES(KEPT_CELL), BYTES(CELLS_64_OF_8), 160),
    JOIN_REFUSED("23: 64 cells and that of a pre", 23, 0, BYTES(CELLS_64_OF_8), BYTES(PRE_CELL), 162),
    JOIN_REFUSED("23: 64 cells and that of an fby", 23, 0, BYTES(CELLS_64_OF_8), BYTES(FBY_CELL), 163),
    JOIN_REFUSED("23: 64 cells and that of a machine", 23, 0, BYTES(CELLS_64_OF_8), BYTES(MACHINE_CELL), 167),
    JOIN_REFUSED("23: that of a machine and 64 cells", 23, 0, BYTES(MACHINE_CELL), BYTES(CELLS_64_OF_8), 167),
    JOINED("4096 bytes: 2050 and 2049", ALL_OF(length_2050), ALL_OF(length_2049), 0, 64, TIMES_64(1), 2, 31, 63, SUMS_2014, SUMS_2013),
    JOINED("4096 bytes: 4092 and 7", ALL_OF(length_4092), BYTES(SHORTEST), 0, 64, TIMES_63(1), 0, 2, 0, 63, SUMS_4025, ALWAYS),
    JOINED("4096 bytes: 7 and 4092", BYTES(SHORTEST), ALL_OF(length_4092), 0, 64, 0, TIMES_63(1), 2, 0, 1, ALWAYS, SUMS_4025),
    JOIN_REFUSED("23: 2050 and 2050 bytes", 23, 0, ALL_OF(length_2050), ALL_OF(length_2050), 4097),
    JOIN_REFUSED("23: 2049 and 2051 bytes", 23, 0, ALL_OF(length_2049), ALL_OF(length_2051), 4097),
    JOIN_REFUSED("23: 4093 bytes and 7", 23, 0, ALL_OF(length_4093), BYTES(SHORTEST), 4097),
    JOIN_REFUSED("23: 7 bytes and 4093", 23, 0, BYTES(SHORTEST), ALL_OF(length_4093), 4097),
    JOIN_REFUSED("23: 4096 bytes and 4096", 23, 0, ALL_OF(longest), ALL_OF(longest), 8189),

    A_AND_F_LENT("16: one byte short", 55),
    A_AND_F_LENT("16: one byte long", 57),
    A_AND_F_LENT("16: empty", 0),
    A_AND_F_LENT("16: one byte", 1),
    A_AND_F_LENT("16: the sum of both lengths", 59),
    A_AND_F_LENT("16: the length of the first", 40),
    A_AND_F_LENT("16: the length of the second", 19),
    A_AND_F_LENT("16: 256 more", 256 + 56),
    A_AND_F_LENT("16: sixteen bits more", sixteen_bits + 56),
    A_AND_F_LENT("16: the longest", 4096),
    JOIN_REFUSED("16: the shortest twice, one byte short", 16, 0, BYTES(SHORTEST), BYTES(SHORTEST), 10),
    JOIN_REFUSED("16: the shortest twice, one byte long", 16, 0, BYTES(SHORTEST), BYTES(SHORTEST), 12),
    JOIN_REFUSED("16: of 4096, one byte short", 16, 0, ALL_OF(length_2050), ALL_OF(length_2049), 4095),
    JOIN_REFUSED("16: of 4096, one byte long", 16, 0, ALL_OF(length_2050), ALL_OF(length_2049), 4097),
    JOIN_REFUSED("16: of 4096, empty", 16, 0, ALL_OF(length_2050), ALL_OF(length_2049), 0),
    JOIN_REFUSED("16: at 16 inputs", 16, 0, BYTES(INPUTS_8), BYTES(INPUTS_8), 26),
    JOIN_REFUSED("16: at 64 cells", 16, 0, BYTES(CELLS_32), BYTES(CELLS_32), 0),

    JOIN_REFUSED("23: inputs, before 16", 23, 0, BYTES(INPUTS_9), BYTES(INPUTS_8), 27),
    JOIN_REFUSED("23: wires, before 16", 23, 0, BYTES(CHAIN_OF_64), BYTES(SHORTEST), 0),
    JOIN_REFUSED("23: outputs, before 16", 23, 0, BYTES(OUTPUTS_16), BYTES(SHORTEST), 72),
    JOIN_REFUSED("23: cells, before 16", 23, 0, BYTES(CELLS_32), BYTES(CELLS_33), 0),
    JOIN_REFUSED("23: length, before 16", 23, 0, ALL_OF(length_2050), ALL_OF(length_2050), 4096),
    JOIN_REFUSED("23: length, before 16 for none", 23, 0, ALL_OF(length_4093), BYTES(SHORTEST), 0),

    JOIN_REFUSED("1: no first", 1, 0, NOTHING, BYTES(SHEET_F), 16),
    JOIN_REFUSED("1: the first of 4097", 1, 0, ALL_OF(too_long), BYTES(SHORTEST), 4101),
    SECOND_REFUSED("1: no second", 1, 0, BYTES(SHEET_F), NOTHING, 16),
    SECOND_REFUSED("1: the second of 4097", 1, 0, BYTES(SHORTEST), ALL_OF(too_long), 4101),
    JOIN_REFUSED("1: neither", 1, 0, NOTHING, NOTHING, 0),
    FIRST_BEFORE_F("2: the first", 2, 5, 0, 1, 1, 1, 0),
    SECOND_BEHIND_F("2: the second", 2, 5, 0, 1, 1, 1, 0),
    FIRST_BEFORE_F("3: the first", 3, 1, 0, 65),
    SECOND_BEHIND_F("3: the second", 3, 1, 0, 65),
    SECOND_BEHIND_F("3: the second at 0", 3, 0, 17),
    FIRST_BEFORE_F("4: the first", 4, 2, 0, 1, 4),
    SECOND_BEHIND_F("4: the second", 4, 2, 0, 1, 4),
    FIRST_BEFORE_F("5: the first", 5, 4, 0, 1, 1, 1, 1, CONSTANT(1)),
    SECOND_BEHIND_F("5: the second, an output that the first would have", 5, 4, 0, 1, 1, 1, 1, CONSTANT(1)),
    FIRST_BEFORE_F("6: the first", 6, 5, 0, 1, 1, 1, 0, 20),
    SECOND_BEHIND_F("6: the second", 6, 5, 0, 1, 1, 1, 0, 20),
    FIRST_BEFORE_F("7: the first names a wire that the second would have", 7, 5, 0, 1, 1, 1, 0, WIRE(1)),
    SECOND_BEHIND_F("7: the second names a wire that there would be", 7, 5, 0, 1, 1, 1, 0, WIRE(1)),
    JOIN_REFUSED("7: the first names an input of the second", 7, 5, BYTES(0, 1, 0, 1, 0, INPUT(0)), BYTES(SHEET_A), 44),
    SECOND_REFUSED("7: the second names an input of the first", 7, 5, BYTES(SHEET_A), BYTES(0, 1, 0, 1, 0, INPUT(0)), 44),
    SECOND_REFUSED("7: the second names a kept wire of the first", 7, 5, BYTES(COUNTER), BYTES(0, 1, 1, 1, 0, LAST(0)), 17),
    FIRST_BEFORE_F("8: the first", 8, 21, 0, 1, 1, 1, 0, TIMES_16(5), CONSTANT(9)),
    SECOND_BEHIND_F("8: the second", 8, 21, 0, 1, 1, 1, 0, TIMES_16(5), CONSTANT(9)),
    FIRST_BEFORE_F("9: the first", 9, 5, 0, 1, 1, 1, 0, ALWAYS),
    SECOND_BEHIND_F("9: the second", 9, 5, 0, 1, 1, 1, 0, ALWAYS),
    SECOND_REFUSED("9: the second, by the type that the first has", 9, 6, BYTES(SHEET_A), BYTES(1, 1, 1, 0, 1, 0, INPUT(0)), 45),
    FIRST_BEFORE_F("10: the first", 10, 154, 0, 8, TIMES_8(0), 1, 7, TIMES_7(EIGHT_CELLS), TIMES_8(15, 0), 15, 0, NEVER),
    SECOND_BEHIND_F("10: the second", 10, 154, 0, 8, TIMES_8(0), 1, 7, TIMES_7(EIGHT_CELLS), TIMES_8(15, 0), 15, 0, NEVER),
    FIRST_BEFORE_F("11: the first", 11, 19, SHEET_F, 0),
    SECOND_BEHIND_F("11: the second", 11, 19, SHEET_F, 0),
    JOIN_REFUSED("11: the first, with the second behind", 11, 19, BYTES(SHEET_F, SHEET_F), BYTES(SHEET_F), 54),

    JOIN_REFUSED("11: the first, before 1 of the second", 11, 19, BYTES(SHEET_F, 0), NOTHING, 16),
    JOIN_REFUSED("11: the first, before 2 of the second", 11, 19, BYTES(SHEET_F, 0), BYTES(0), 16),
    JOIN_REFUSED("2: the first, before 2 of the second", 2, 5, BYTES(0, 1, 1, 1, 0), BYTES(0, 1, 1, 1), 6),
    JOIN_REFUSED("9: the first, before 3 of the second", 9, 5, BYTES(0, 1, 1, 1, 0, ALWAYS), BYTES(17), 5),
    JOIN_REFUSED("9: the first, before 16", 9, 5, BYTES(0, 1, 1, 1, 0, ALWAYS), BYTES(SHEET_F), 0),
    JOIN_REFUSED("11: the first, before 23", 11, 199, BYTES(CHAIN_OF_64, 0), BYTES(CHAIN_OF_64), 396),
    JOIN_REFUSED("1: the first, before 23", 1, 0, ALL_OF(too_long), ALL_OF(longest), 8190),
    SECOND_REFUSED("11: the second, before 16", 11, 19, BYTES(SHEET_F), BYTES(SHEET_F, 0), 0),
    SECOND_REFUSED("11: the second, before 23 for wires", 11, 199, BYTES(CHAIN_OF_64), BYTES(CHAIN_OF_64, 0), 396),
    SECOND_REFUSED("11: the second, before 23 for inputs", 11, 23, BYTES(INPUTS_16), BYTES(INPUTS_16, 0), 44),
    SECOND_REFUSED("9: the second, before 23 for outputs", 9, 5, BYTES(OUTPUTS_16), BYTES(0, 1, 1, 1, 0, ALWAYS), 71),
    SECOND_REFUSED("2: the second, before 23 for length", 2, 4095, ALL_OF(longest), LONGEST_BUT_A_BYTE, 8188),
    SECOND_REFUSED("1: the second, before 23 for length", 1, 0, ALL_OF(longest), ALL_OF(too_long), 8190),
    SECOND_REFUSED("1: the second not there, before 23", 1, 0, ALL_OF(longest), NOTHING, 4093),
    SECOND_REFUSED("10: the second, before 23 for cells", 10, 154, BYTES(CELLS_64_OF_8),
                   BYTES(0, 8, TIMES_8(0), 1, 7, TIMES_7(EIGHT_CELLS), TIMES_8(15, 0), 15, 0, NEVER), 308),
};

const struct table cases_of_joining = TABLE(rows);
