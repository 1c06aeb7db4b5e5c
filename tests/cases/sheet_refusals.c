/* The refusals 1 to 11 of a sheet, with their places and with the order in which they are looked for. Rests on sheet A. */
#include "cases/rows.h"
#include "cases/sheets.h"

/* A length that would pass if only its lower sixteen bits were looked at. */
static const uint8_t too_long_sheet[sixteen_bits + 40] = {SHEET_A};

/* The runner tries a refused check on all calls. */
static const struct row rows[] = {
    {.name = "1: empty", .sheet = {too_long_sheet, 0}, .refused = 1, .place = 0},
    {.name = "1: sixteen bits too long", .sheet = {too_long_sheet, sixteen_bits + 40},
     .refused = 1, .place = 0},

    {.name = "2: no type of input 1", .sheet = BYTES(2, 0), .refused = 2, .place = 2},
    {.name = "2: no count of wires", .sheet = BYTES(0), .refused = 2, .place = 1},
    {.name = "2: no type of wire 0", .sheet = BYTES(0, 1), .refused = 2, .place = 2},
    {.name = "2: no count of outputs", .sheet = BYTES(0, 1, 1), .refused = 2, .place = 3},
    {.name = "2: no output", .sheet = BYTES(0, 1, 1, 1), .refused = 2, .place = 4},
    {.name = "2: no kind byte", .sheet = BYTES(0, 1, 1, 1, 0), .refused = 2, .place = 5},
    {.name = "2: no operand", .sheet = BYTES(0, 1, 1, 1, 0, 5), .refused = 2, .place = 6},
    {.name = "2: number cut", .sheet = BYTES(0, 1, 1, 1, 0, 1, 7, 7, 7), .refused = 2,
     .place = 9},
    {.name = "2: wire number cut", .sheet = BYTES(0, 1, 1, 1, 0, 2), .refused = 2, .place = 6},
    {.name = "2: pre cut", .sheet = BYTES(0, 1, 1, 1, 0, 16, 0, 0, 0), .refused = 2, .place = 9},
    {.name = "2: cut body where its type is not asked",
     .sheet = BYTES(0, 1, 0, 1, 0, 1, 7, 7, 7), .refused = 2, .place = 9},
    {.name = "2: no kind byte on level 17", .sheet = BYTES(0, 1, 1, 1, 0, TIMES_16(5)),
     .refused = 2, .place = 21},
    {.name = "2: second wire", .sheet = BYTES(0, 2, 1, 1, 1, 0, 1, 0, 0, 0, 0), .refused = 2,
     .place = 11},

    {.name = "3: inputs 17 alone", .sheet = BYTES(17), .refused = 3, .place = 0},
    {.name = "3: inputs 255", .sheet = BYTES(255, 0, 0), .refused = 3, .place = 0},
    {.name = "3: wires 0", .sheet = BYTES(0, 0), .refused = 3, .place = 1},
    {.name = "3: wires 65", .sheet = BYTES(2, 0, 1, 65), .refused = 3, .place = 3},
    {.name = "3: outputs 0", .sheet = BYTES(0, 1, 1, 0), .refused = 3, .place = 3},
    {.name = "3: outputs 17", .sheet = BYTES(0, 1, 1, 17), .refused = 3, .place = 3},

    {.name = "4: input before the cut", .sheet = BYTES(3, 7), .refused = 4, .place = 1},
    {.name = "4: second input", .sheet = BYTES(2, 1, 2), .refused = 4, .place = 2},
    {.name = "4: wire", .sheet = BYTES(0, 1, 4), .refused = 4, .place = 2},
    {.name = "4: second wire", .sheet = BYTES(1, 0, 2, 0, 255), .refused = 4, .place = 4},

    {.name = "5: not a wire", .sheet = BYTES(0, 1, 1, 1, 1), .refused = 5, .place = 4},
    {.name = "5: the same again", .sheet = BYTES(0, 2, 1, 1, 2, 0, 0), .refused = 5, .place = 6},
    {.name = "5: falling", .sheet = BYTES(0, 2, 1, 1, 2, 1, 0), .refused = 5, .place = 6},
    {.name = "5: before the cut", .sheet = BYTES(0, 2, 1, 1, 2, 2), .refused = 5, .place = 5},
    {.name = "5: more outputs than wires", .sheet = BYTES(0, 1, 1, 2, 0, 1), .refused = 5,
     .place = 5},

    {.name = "6: kind 20", .sheet = BYTES(0, 1, 1, 1, 0, 20), .refused = 6, .place = 5},
    {.name = "6: kind 255 as second operand",
     .sheet = BYTES(0, 1, 1, 1, 0, 8, 1, 0, 0, 0, 0, 255), .refused = 6, .place = 11},
    {.name = "6: kind 20 on level 17", .sheet = BYTES(0, 1, 1, 1, 0, TIMES_16(5), 20),
     .refused = 6, .place = 21},

    {.name = "7: wire 1 of 1", .sheet = BYTES(0, 1, 1, 1, 0, 2, 1), .refused = 7, .place = 5},
    {.name = "7: input 0 of none", .sheet = BYTES(0, 1, 1, 1, 0, 3, 0), .refused = 7,
     .place = 5},
    {.name = "7: input 1 of 1", .sheet = BYTES(1, 1, 1, 1, 1, 0, 5, 3, 1), .refused = 7,
     .place = 7},
    {.name = "7: Boolean 2", .sheet = BYTES(0, 1, 0, 1, 0, 0, 2), .refused = 7, .place = 5},
    {.name = "7: Boolean 2 where a number is asked", .sheet = BYTES(0, 1, 1, 1, 0, 0, 2),
     .refused = 7, .place = 5},
    {.name = "7: pre 2", .sheet = BYTES(0, 1, 0, 1, 0, 15, 2, 0, 0), .refused = 7, .place = 5},
    {.name = "7: pre 2 where a number is asked, operand missing",
     .sheet = BYTES(0, 1, 1, 1, 0, 15, 2), .refused = 7, .place = 5},

    {.name = "8: present on level 17", .sheet = BYTES(0, 1, 1, 1, 0, TIMES_16(5), 13),
     .refused = 8, .place = 21},
    {.name = "8: cut body on level 17", .sheet = BYTES(0, 1, 1, 1, 0, TIMES_16(5), 1, 0),
     .refused = 8, .place = 21},
    {.name = "8: before 10",
     .sheet = BYTES(0, 64, TIMES_63(0), 0, 1, 0, TIMES_63(15, 0, 0, 0), 15, 0, TIMES_15(4), 15),
     .refused = 8, .place = 337},

    {.name = "9: Boolean for a number", .sheet = BYTES(0, 1, 1, 1, 0, 0, 1), .refused = 9,
     .place = 5},
    {.name = "9: number for a Boolean", .sheet = BYTES(0, 1, 0, 1, 0, 1, 0, 0, 0, 0),
     .refused = 9, .place = 5},
    {.name = "9: wire", .sheet = BYTES(0, 2, 0, 1, 1, 0, 2, 1, 1, 0, 0, 0, 0), .refused = 9,
     .place = 6},
    {.name = "9: input", .sheet = BYTES(1, 1, 1, 0, 1, 0, 3, 0), .refused = 9, .place = 6},
    {.name = "9: not", .sheet = BYTES(0, 1, 1, 1, 0, 4), .refused = 9, .place = 5},
    {.name = "9: negate", .sheet = BYTES(0, 1, 0, 1, 0, 5), .refused = 9, .place = 5},
    {.name = "9: and", .sheet = BYTES(0, 1, 1, 1, 0, 6), .refused = 9, .place = 5},
    {.name = "9: add", .sheet = BYTES(0, 1, 0, 1, 0, 8), .refused = 9, .place = 5},
    {.name = "9: less than", .sheet = BYTES(0, 1, 1, 1, 0, 10), .refused = 9, .place = 5},
    {.name = "9: operand of equal", .sheet = BYTES(0, 1, 0, 1, 0, 11, 0, 1), .refused = 9,
     .place = 6},
    {.name = "9: condition of if", .sheet = BYTES(0, 1, 1, 1, 0, 12, 1, 0, 0, 0, 0),
     .refused = 9, .place = 6},
    {.name = "9: else-arm of present",
     .sheet = BYTES(0, 1, 1, 1, 0, 13, 0, 1, 1, 0, 0, 0, 0, 0, 1), .refused = 9, .place = 13},
    {.name = "9: operand of reset", .sheet = BYTES(0, 1, 1, 1, 0, 14, 0, 1, 0, 1), .refused = 9,
     .place = 8},
    {.name = "9: Boolean pre", .sheet = BYTES(0, 1, 1, 1, 0, 15, 0, 0, 0), .refused = 9,
     .place = 5},
    {.name = "9: number pre", .sheet = BYTES(0, 1, 0, 1, 0, 16, 0, 0, 0, 0), .refused = 9,
     .place = 5},
    {.name = "9: left of fby", .sheet = BYTES(0, 1, 1, 1, 0, 17, 0, 0), .refused = 9,
     .place = 6},

    {.name = "10: before the cut body",
     .sheet = BYTES(0, 64, TIMES_64(0), 1, 63, TIMES_63(15, 0, 0, 0), 15, 0, 15), .refused = 10,
     .place = 322},
    {.name = "10: before 9",
     .sheet = BYTES(0, 64, TIMES_64(0), 1, 63, TIMES_63(15, 0, 0, 0), 15, 0, 16, 0, 0, 0, 0),
     .refused = 10, .place = 322},
    {.name = "10: fby", .refused = 10, .place = 322,
     .sheet = BYTES(0, 64, TIMES_64(0), 1, 63, TIMES_63(15, 0, 0, 0), 15, 0, 17, 0, 0, 0, 0)},

    {.name = "11: one byte", .sheet = BYTES(0, 1, 1, 1, 0, 1, 0, 0, 0, 0, 9), .refused = 11,
     .place = 10},
    {.name = "11: after sheet A", .sheet = BYTES(SHEET_A, 0, 0), .refused = 11, .place = 40}
};

const struct table cases_of_sheet_refusals = TABLE(rows);
