/* Sheets that are joined and what they are joined to, by hand, and the words in which joins are written. What a sheet names stands as a
 * number in brackets: in the sheet by itself, in the second of two behind the wires and inputs of the first. Rests on the words of the
 * rows.
 */
#ifndef CASES_JOINS_H
#define CASES_JOINS_H

#include "cases/limits.h"
#include "cases/sheets.h"
#include "cases/ways.h"

/* Two sheets and what they are joined to, which comes last. */
#define JOINED(title, one, other, ...)                                                                         \
    {.name = title, .call = call_join, .first = one, .second = other, .joined_length = LENGTH_OF(__VA_ARGS__), \
     .joined_after = BYTES(__VA_ARGS__)}

/* A join that is refused for the first sheet or for what the two have together, and one for the second sheet. */
#define JOIN_REFUSED(title, number, at, one, other, length) \
    {.name = title, .call = call_join, .first = one, .second = other, .joined_length = length, .refused = number, .place = at}
#define SECOND_REFUSED(title, number, at, one, other, length)                                                                  \
    {.name = title, .call = call_join, .first = one, .second = other, .joined_length = length, .refused = number, .place = at, \
     .in_second = true}

/* ---- Expressions of A to L ---- */

#define OF_A(pulse, boundary, wire) \
    14, INPUT(boundary), 8, 16, NUMBER(0), WIRE(wire), 12, INPUT(pulse), CONSTANT(1), CONSTANT(0), 16, NUMBER(0), WIRE(wire)
#define OF_E(wire_1, wire_2) WIRE(wire_1), WIRE(wire_2), CONSTANT(5)
#define OF_F(wire) 17, CONSTANT(5), 8, WIRE(wire), CONSTANT(1)
#define OF_G(input) 13, INPUT(input), 17, CONSTANT(10), CONSTANT(20), CONSTANT(0)

#define A_AND_A 4, TIMES_4(0), 4, TIMES_4(1), 4, 0, 1, 2, 3, OF_A(0, 1, 0), OF_A(2, 3, 2)
#define A_AND_F 2, 0, 0, 3, 1, 1, 1, 3, 0, 1, 2, OF_A(0, 1, 0), OF_F(2)
#define F_AND_A 2, 0, 0, 3, 1, 1, 1, 3, 0, 1, 2, OF_F(0), OF_A(0, 1, 1)
#define A_AND_G 3, 0, 0, 0, 3, 1, 1, 1, 3, 0, 1, 2, OF_A(0, 1, 0), OF_G(2)
#define G_AND_A 3, 0, 0, 0, 3, 1, 1, 1, 3, 0, 1, 2, OF_G(0), OF_A(1, 2, 1)
#define E_AND_F 0, 4, TIMES_4(1), 4, 0, 1, 2, 3, OF_E(1, 2), OF_F(3)
#define F_AND_E 0, 4, TIMES_4(1), 4, 0, 1, 2, 3, OF_F(0), OF_E(2, 3)
#define F_AND_F 0, 2, 1, 1, 2, 0, 1, OF_F(0), OF_F(1)
#define F_AND_F_AND_F 0, 3, 1, 1, 1, 3, 0, 1, 2, OF_F(0), OF_F(1), OF_F(2)
#define A_AND_L                                                                                                         \
    4, 0, 0, 0, 1, 7, TIMES_7(1), 3, 0, 1, 6, OF_A(0, 1, 0), 13, 3, 2, 3, 3, 2, 5, 13, 3, 2, 2, 4, 3, 3, 8, 2, 2, 1, 1, \
        0, 0, 0, 5, 2, 3, 13, 3, 2, 2, 5, 2, 4
#define L_AND_A                                                                                                            \
    4, 0, 1, 0, 0, 7, TIMES_7(1), 3, 4, 5, 6, 13, 3, 0, 3, 1, 2, 3, 13, 3, 0, 2, 2, 3, 1, 8, 2, 0, 1, 1, 0, 0, 0, 5, 2, 1, \
        13, 3, 0, 2, 3, 2, 2, OF_A(2, 3, 5)
#define B_AND_F 0, 2, 1, 1, 2, 0, 1, WIRE(0), OF_F(1)
#define F_AND_B 0, 2, 1, 1, 2, 0, 1, OF_F(0), WIRE(1)
#define B_AND_B 0, 2, 1, 1, 2, 0, 1, WIRE(0), WIRE(1)

/* ---- Kept wires and machines ---- */

/* A kept number that counts on from its last; and a kept Boolean, true from when the input was. */
#define OF_COUNTER(wire) 8, LAST(wire), CONSTANT(1)
#define COUNTER 0, 1, 3, 1, 0, OF_COUNTER(0)
#define OF_FLAG(input, wire) 7, LAST(wire), INPUT(input)
#define FLAG 1, 0, 1, 2, 1, 0, OF_FLAG(0, 0)

#define COUNTER_AND_COUNTER 0, 2, 3, 3, 2, 0, 1, OF_COUNTER(0), OF_COUNTER(1)
#define FLAG_AND_COUNTER 1, 0, 2, 2, 3, 2, 0, 1, OF_FLAG(0, 0), OF_COUNTER(1)
#define COUNTER_AND_FLAG 1, 0, 2, 3, 2, 2, 0, 1, OF_COUNTER(0), OF_FLAG(0, 1)
#define A_AND_FLAG 3, 0, 0, 0, 3, 1, 1, 2, 3, 0, 1, 2, OF_A(0, 1, 0), OF_FLAG(2, 2)

/* A relay that closes when both inputs hold and opens when neither does. */
#define OF_RELAY(one, other) 19, 6, INPUT(one), INPUT(other), 4, 7, INPUT(one), INPUT(other), NEVER, ALWAYS
#define RELAY 2, 0, 0, 1, 0, 1, 0, OF_RELAY(0, 1)

#define RELAY_AND_RELAY 4, TIMES_4(0), 2, 0, 0, 2, 0, 1, OF_RELAY(0, 1), OF_RELAY(2, 3)
#define A_AND_RELAY 4, TIMES_4(0), 3, 1, 1, 0, 3, 0, 1, 2, OF_A(0, 1, 0), OF_RELAY(2, 3)
#define RELAY_AND_COUNTER 2, 0, 0, 2, 0, 3, 2, 0, 1, OF_RELAY(0, 1), OF_COUNTER(1)

/* ---- Names in every place ---- */

/* Inputs: a Boolean, b, and a number, n. Wire 0, kept: pre false of (b and (wire 0 or its last)); wire 1, kept: n fby (-n + (wire 1 - its
 * last)); wire 2: if n below the last of wire 1 then pre 9 of n else wire 1; wire 3: present the last of wire 0 do n else reset every b of
 * wire 1; wire 4: a machine that leaves state 0 where b holds and state 1 where wire 0 does, with bodies not b and n equal to wire 2. */
#define OF_EVERY_PLACE(b, n, wire_0, wire_1, wire_2)                                                                    \
    15, 0, 6, INPUT(b), 7, WIRE(wire_0), LAST(wire_0), 17, INPUT(n), 8, 5, INPUT(n), 9, WIRE(wire_1), LAST(wire_1), 12, \
        10, INPUT(n), LAST(wire_1), 16, NUMBER(9), INPUT(n), WIRE(wire_1), 13, LAST(wire_0), INPUT(n), 14, INPUT(b),    \
        WIRE(wire_1), 19, INPUT(b), WIRE(wire_0), 4, INPUT(b), 11, INPUT(n), WIRE(wire_2)
#define EVERY_PLACE 2, 0, 1, 5, 2, 3, 1, 1, 0, 5, 0, 1, 2, 3, 4, OF_EVERY_PLACE(0, 1, 0, 1, 2)

#define FROM_0_TO_6 0, 1, 2, 3, 4, 5, 6
#define A_AND_EVERY_PLACE \
    4, 0, 0, 0, 1, 7, 1, 1, 2, 3, 1, 1, 0, 7, FROM_0_TO_6, OF_A(0, 1, 0), OF_EVERY_PLACE(2, 3, 2, 3, 4)
#define EVERY_PLACE_AND_A \
    4, 0, 1, 0, 0, 7, 2, 3, 1, 1, 0, 1, 1, 7, FROM_0_TO_6, OF_EVERY_PLACE(0, 1, 0, 1, 2), OF_A(2, 3, 5)
#define EVERY_PLACE_TWICE                                                                             \
    4, 0, 1, 0, 1, 10, TWICE(2, 3, 1, 1, 0), 10, FROM_0_TO_6, 7, 8, 9, OF_EVERY_PLACE(0, 1, 0, 1, 2), \
        OF_EVERY_PLACE(2, 3, 5, 6, 7)

/* Bytes of constants that would be names elsewhere: 2 0 3 0; pre 18 0 2 1 of 3 0 18 0; pre true of true. And the ends: the least number;
 * pre the greatest of -1. */
#define OF_CONSTANTS \
    1, 2, 0, 3, 0, 16, 18, 0, 2, 1, 1, 3, 0, 18, 0, 15, 1, ALWAYS, 1, LEAST_NUMBER, 16, GREATEST_NUMBER, 1, MINUS(1)
#define CONSTANTS 0, 5, 1, 1, 0, 1, 1, 2, 0, 2, OF_CONSTANTS
#define A_AND_CONSTANTS 2, 0, 0, 7, 1, 1, 1, 1, 0, 1, 1, 4, 0, 1, 2, 4, OF_A(0, 1, 0), OF_CONSTANTS

/* ---- Limits ---- */

/* The shortest sheet. */
#define SHORTEST 0, 1, 0, 1, 0, ALWAYS

/* Thirty-two wires, a constant but for the last, which is the first; sixty-three that are the last. */
#define THIRTY_ONE_SEVENS TIMES_16(CONSTANT(7)), TIMES_15(CONSTANT(7))
#define WIRES_32 0, 32, TIMES_32(1), 1, 31, THIRTY_ONE_SEVENS, WIRE(0)
#define WIRES_33 0, 33, TIMES_32(1), 1, 1, 31, THIRTY_ONE_SEVENS, WIRE(0), CONSTANT(7)
#define WIRES_63 0, 63, TIMES_63(1), 1, 62, TIMES_63(WIRE(62))

/* Eight pres of false to a wire; four of these wires and eight. And a cell by itself: a kept wire, a pre, an fby, a machine. */
#define EIGHT_CELLS TIMES_8(15, 0), NEVER
#define CELLS_32 0, 4, TIMES_4(0), 1, 3, TIMES_4(EIGHT_CELLS)
#define CELLS_33 0, 4, TIMES_4(0), 1, 3, TWICE(EIGHT_CELLS), EIGHT_CELLS, 15, 0, EIGHT_CELLS
#define CELLS_64_OF_8 0, 8, TIMES_8(0), 1, 7, TIMES_8(EIGHT_CELLS)
#define KEPT_CELL 0, 1, 2, 1, 0, ALWAYS
#define PRE_CELL 0, 1, 0, 1, 0, 15, 0, ALWAYS
#define FBY_CELL 0, 1, 0, 1, 0, 17, NEVER, ALWAYS
#define MACHINE_CELL 0, 1, 0, 1, 0, 19, TIMES_4(NEVER)

#endif
