/* Sheets of 64 wires that read each other one after the other, and lists of all their wires. Rests on the words in which rows are written.
 */
#ifndef CASES_CHAINS_H
#define CASES_CHAINS_H

#include "cases/rows.h"

/* No inputs, 64 number wires, wire 0 the output. */
#define HEADER_OF_64 0, 64, TIMES_64(1), 1, 0
/* Sixty-two wires, each a wire. */
#define READING_1_TO_62                                                                        \
    2, 1, 2, 2, 2, 3, 2, 4, 2, 5, 2, 6, 2, 7, 2, 8, 2, 9, 2, 10, 2, 11, 2, 12, 2, 13, 2, 14,   \
        2, 15, 2, 16, 2, 17, 2, 18, 2, 19, 2, 20, 2, 21, 2, 22, 2, 23, 2, 24, 2, 25, 2, 26, 2, \
        27, 2, 28, 2, 29, 2, 30, 2, 31, 2, 32, 2, 33, 2, 34, 2, 35, 2, 36, 2, 37, 2, 38, 2,    \
        39, 2, 40, 2, 41, 2, 42, 2, 43, 2, 44, 2, 45, 2, 46, 2, 47, 2, 48, 2, 49, 2, 50, 2,    \
        51, 2, 52, 2, 53, 2, 54, 2, 55, 2, 56, 2, 57, 2, 58, 2, 59, 2, 60, 2, 61, 2, 62

/* Wire k is wire k + 1, and wire 63 is 5. */
#define CHAIN_OF_64 HEADER_OF_64, READING_1_TO_62, 2, 63, 1, 5, 0, 0, 0
/* Wire 0 is 5, and wire k + 1 is wire k. */
#define RISING_CHAIN_OF_64 HEADER_OF_64, 1, 5, 0, 0, 0, 2, 0, READING_1_TO_62
/* Wire k is wire k + 1, and wire 63 is wire 0. */
#define LOOP_OF_64 HEADER_OF_64, READING_1_TO_62, 2, 63, 2, 0

#define DOWN_FROM_63                                                                        \
    63, 62, 61, 60, 59, 58, 57, 56, 55, 54, 53, 52, 51, 50, 49, 48, 47, 46, 45, 44, 43, 42, \
        41, 40, 39, 38, 37, 36, 35, 34, 33, 32, 31, 30, 29, 28, 27, 26, 25, 24, 23, 22, 21, \
        20, 19, 18, 17, 16, 15, 14, 13, 12, 11, 10, 9, 8, 7, 6, 5, 4, 3, 2, 1, 0
#define FROM_1_TO_63                                                                           \
    1, 2, 3, 4, 5, 6, 7, 8, 9, 10, 11, 12, 13, 14, 15, 16, 17, 18, 19, 20, 21, 22, 23, 24, 25, \
        26, 27, 28, 29, 30, 31, 32, 33, 34, 35, 36, 37, 38, 39, 40, 41, 42, 43, 44, 45, 46,    \
        47, 48, 49, 50, 51, 52, 53, 54, 55, 56, 57, 58, 59, 60, 61, 62, 63

#endif
