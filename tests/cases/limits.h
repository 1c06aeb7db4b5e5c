/* Sheets at the limits that boards are made of too: most cells, most bytes, most inputs. Rests on the words in which rows are written. */
#ifndef CASES_LIMITS_H
#define CASES_LIMITS_H

#include "cases/rows.h"

/* Sixty-four wires, each a pre of false. */
#define CELLS_64 0, 64, TIMES_64(0), 1, 63, TIMES_64(15, 0, 0, 0)

/* A sum of ten ones takes 59 bytes and ten levels; with three negates 62, with six 65. So 69
 * bytes of header, 19 wires of 65, one of 64 and 44 of 62 are 4,096 bytes. */
#define SUM_OF_TEN TIMES_8(8, 1, 1, 0, 0, 0), 8, 1, 1, 0, 0, 0, 1, 1, 0, 0, 0
#define WIRE_OF_62 5, 5, 5, SUM_OF_TEN
#define WIRE_OF_65 5, 5, 5, WIRE_OF_62
#define LENGTH_4096                                                                              \
    0, 64, TIMES_64(1), 2, 0, 63, TIMES_16(WIRE_OF_65), TWICE(WIRE_OF_65), WIRE_OF_65,           \
        5, 5, WIRE_OF_62, TIMES_32(WIRE_OF_62), TIMES_8(WIRE_OF_62), TIMES_4(WIRE_OF_62)

/* Fifteen Booleans and a number, which is the wire. */
#define INPUTS_16 16, TIMES_15(0), 1, 1, 1, 1, 0, 3, 15

#endif
