/* What a joined sheet does (document 02, K10): it passes the check with the cells of both, starts with the two memories joined, and its
 * instants are those of its parts, in rounds and along a joined list. Rests on the sheets that joining.c joins.
 */
#include "cases/joins.h"

/* An instant that is refused in rounds and along a list, with an input row. */
#define REFUSED_WITH_INPUT(list, title, number, at, length, bytes, before, inputs)                                          \
    {.name = title, .call = call_rounds, .sheet = BYTES(bytes), .memory = before, .input = inputs, .output_length = length, \
     .refused = number, .place = at},                                                                                       \
    {.name = title " along a list", .call = call_scheduled, .sheet = BYTES(bytes), .memory = before, .input = inputs,       \
     .output_length = length, .schedule = list, .refused = number, .place = at}

/* Cells of A: the count of the quarter and what wire 1 gives; those of every place, at the start. */
#define A_CELLS(count, last) CELL(1, count), CELL(1, last)
#define EVERY_PLACE_STARTED CELL(1, 0), CELL(1, 0), CELL(1, 0), CELL(0, 0), CELL(1, 9), CELL(1, 0)
#define EVERY_PLACE_LATER CELL(1, 0), CELL(1, 0), CELL(1, 7), CELL(1, 0), CELL(1, 7), CELL(1, 1)

static const struct row rows[] = {
    PASSES("A and A: cells", 4, A_AND_A),
    PASSES("A and F: cells", 3, A_AND_F),
    PASSES("A and L: cells", 2, A_AND_L),
    PASSES("B and B: cells", 0, B_AND_B),
    PASSES("a kept Boolean and a kept number: cells", 2, FLAG_AND_COUNTER),
    PASSES("two relays: cells", 2, RELAY_AND_RELAY),
    PASSES("every place twice: cells", 12, EVERY_PLACE_TWICE),

    STARTS("A and F: start", A_AND_F, LENT(15), A_CELLS(0, 0), CELL(0, 0)),
    STARTS("F and A: start", F_AND_A, LENT(15), CELL(0, 0), A_CELLS(0, 0)),
    STARTS("A and constants: start", A_AND_CONSTANTS, LENT(25), A_CELLS(0, 0), STARTED_CELL(18, 0, 2, 1), CELL(1, 1),
           STARTED_CELL(GREATEST_NUMBER)),
    STARTS("every place behind A: start", A_AND_EVERY_PLACE, LENT(40), A_CELLS(0, 0), EVERY_PLACE_STARTED),
    STARTS("every place before A: start", EVERY_PLACE_AND_A, LENT(40), EVERY_PLACE_STARTED, A_CELLS(0, 0)),

    BOTH_WAYS(BYTES(0, 1, 2, 3), "A and A", A_AND_A, BYTES(A_CELLS(7, 6), A_CELLS(3, 2)),
              BYTES(NUMBER(1), NUMBER(0), NUMBER(1), NUMBER(1)), 2, BYTES(A_CELLS(8, 8), A_CELLS(1, 1)), 16, NUMBER(8), NUMBER(6),
              NUMBER(1), NUMBER(2)),
    BOTH_WAYS(BYTES(3, 0, 2, 1), "A and A: a boundary of the first alone", A_AND_A, BYTES(A_CELLS(7, 6), A_CELLS(3, 2)),
              BYTES(NUMBER(0), NUMBER(1), NUMBER(0), NUMBER(0)), 2, BYTES(A_CELLS(0, 0), A_CELLS(3, 3)), 16, NUMBER(0), NUMBER(6),
              NUMBER(3), NUMBER(2)),
    BOTH_WAYS(BYTES(0, 1, 2), "A and F", A_AND_F, BYTES(A_CELLS(7, 6), CELL(0, 0)), BYTES(NUMBER(1), NUMBER(0)), 2,
              BYTES(A_CELLS(8, 8), CELL(1, 6)), 12, NUMBER(8), NUMBER(6), NUMBER(5)),
    BOTH_WAYS(BYTES(0, 1, 2), "F and A", F_AND_A, BYTES(CELL(1, 9), A_CELLS(7, 6)), BYTES(NUMBER(1), NUMBER(0)), 2,
              BYTES(CELL(1, 10), A_CELLS(8, 8)), 12, NUMBER(9), NUMBER(8), NUMBER(6)),
    BOTH_WAYS(BYTES(2, 1, 0), "A and G: the input of G", A_AND_G, BYTES(A_CELLS(7, 6), CELL(1, 30)),
              BYTES(NUMBER(0), NUMBER(0), NUMBER(1)), 2, BYTES(A_CELLS(7, 7), CELL(1, 20)), 12, NUMBER(7), NUMBER(6), NUMBER(30)),
    BOTH_WAYS(BYTES(2, 1, 0), "A and G: the inputs of A", A_AND_G, BYTES(A_CELLS(7, 6), CELL(1, 30)),
              BYTES(NUMBER(1), NUMBER(1), NUMBER(0)), 2, BYTES(A_CELLS(1, 1), CELL(1, 30)), 12, NUMBER(1), NUMBER(6), NUMBER(0)),
    BOTH_WAYS(BYTES(0, 1, 2), "G and A", G_AND_A, BYTES(CELL(1, 30), A_CELLS(7, 6)), BYTES(NUMBER(0), NUMBER(1), NUMBER(0)), 2,
              BYTES(CELL(1, 30), A_CELLS(8, 8)), 12, NUMBER(0), NUMBER(8), NUMBER(6)),
    BOTH_WAYS(BYTES(0, 1, 2), "F three times", F_AND_F_AND_F, BYTES(CELL(1, 9), CELL(0, 0), CELL(1, 70)), NOTHING, 2,
              BYTES(CELL(1, 10), CELL(1, 6), CELL(1, 71)), 12, NUMBER(9), NUMBER(5), NUMBER(70)),

    BOTH_WAYS(BYTES(2, 1, 0, 3), "E and F: as many rounds as E", E_AND_F, BYTES(CELL(1, 9)), NOTHING, 4, BYTES(CELL(1, 10)), 16,
              NUMBER(5), NUMBER(5), NUMBER(5), NUMBER(9)),
    BOTH_WAYS(BYTES(0, 3, 2, 1), "F and E: as many rounds as E", F_AND_E, BYTES(CELL(1, 9)), NOTHING, 4, BYTES(CELL(1, 10)), 16,
              NUMBER(9), NUMBER(5), NUMBER(5), NUMBER(5)),
    BOTH_WAYS(BYTES(3, 2, 0, 1), "F and E: lists may be mixed", F_AND_E, BYTES(CELL(1, 9)), NOTHING, 4, BYTES(CELL(1, 10)), 16, NUMBER(9),
              NUMBER(5), NUMBER(5), NUMBER(5)),
    REFUSED_ALONG(BYTES(0, 1, 2, 3), "19: E and F, for E", 19, 0, 16, E_AND_F, CELL(1, 9)),
    REFUSED_ALONG(BYTES(0, 1, 2, 3), "19: F and E, for E", 19, 1, 16, F_AND_E, CELL(1, 9)),
    REFUSED_ALONG(BYTES(2, 1, 0, 0), "18: E and F, for F", 18, 3, 16, E_AND_F, CELL(1, 9)),
    REFUSED_ALONG(BYTES(2, 1, 0, 4), "18: E and F, a wire that is not there", 18, 3, 16, E_AND_F, CELL(1, 9)),
    REFUSED_ALONG(BYTES(2, 1, 0), "17: E and F, the list of E alone", 17, 0, 16, E_AND_F, CELL(1, 9)),
    {.name = "A and L, c true: 6 rounds", .call = call_rounds, .sheet = BYTES(A_AND_L), .memory = BYTES(A_CELLS(7, 6)),
     .input = BYTES(NUMBER(1), NUMBER(0), NUMBER(1), NUMBER(5)), .output_length = 12, .answer = 6, .memory_after = BYTES(A_CELLS(8, 8)),
     .output_after = BYTES(NUMBER(8), NUMBER(6), MINUS(6))},
    {.name = "A and L, c false: 6 rounds", .call = call_rounds, .sheet = BYTES(A_AND_L), .memory = BYTES(A_CELLS(7, 6)),
     .input = BYTES(NUMBER(1), NUMBER(1), NUMBER(0), NUMBER(5)), .output_length = 12, .answer = 6, .memory_after = BYTES(A_CELLS(1, 1)),
     .output_after = BYTES(NUMBER(1), NUMBER(6), MINUS(4))},
    {.name = "L and A, c true: 6 rounds", .call = call_rounds, .sheet = BYTES(L_AND_A), .memory = BYTES(A_CELLS(7, 6)),
     .input = BYTES(NUMBER(1), NUMBER(5), NUMBER(1), NUMBER(0)), .output_length = 12, .answer = 6, .memory_after = BYTES(A_CELLS(8, 8)),
     .output_after = BYTES(MINUS(6), NUMBER(8), NUMBER(6))},

    BOTH_WAYS(BYTES(1, 0), "two counters", COUNTER_AND_COUNTER, BYTES(CELL(1, 40), CELL(1, 70)), NOTHING, 2,
              BYTES(CELL(1, 41), CELL(1, 71)), 8, NUMBER(41), NUMBER(71)),
    BOTH_WAYS(BYTES(0, 1), "a kept Boolean and a kept number", FLAG_AND_COUNTER, BYTES(CELL(1, 1), CELL(1, 70)), BYTES(NUMBER(0)), 2,
              BYTES(CELL(1, 1), CELL(1, 71)), 8, NUMBER(1), NUMBER(71)),
    BOTH_WAYS(BYTES(0, 1), "a kept number and a kept Boolean", COUNTER_AND_FLAG, BYTES(CELL(1, 70), CELL(1, 0)), BYTES(NUMBER(1)), 2,
              BYTES(CELL(1, 71), CELL(1, 1)), 8, NUMBER(71), NUMBER(1)),
    BOTH_WAYS(BYTES(0, 1, 2), "a kept wire behind A, whose reset fires", A_AND_FLAG, BYTES(A_CELLS(7, 6), CELL(1, 1)),
              BYTES(NUMBER(0), NUMBER(1), NUMBER(0)), 2, BYTES(A_CELLS(0, 0), CELL(1, 1)), 12, NUMBER(0), NUMBER(6), NUMBER(1)),
    BOTH_WAYS(BYTES(0, 1), "two relays: the first closes, the second opens", RELAY_AND_RELAY, BYTES(CELL(1, 0), CELL(1, 1)),
              BYTES(NUMBER(1), NUMBER(1), NUMBER(0), NUMBER(0)), 2, BYTES(CELL(1, 1), CELL(1, 0)), 8, NUMBER(1), NUMBER(0)),
    BOTH_WAYS(BYTES(0, 1), "two relays: both stay", RELAY_AND_RELAY, BYTES(CELL(1, 0), CELL(1, 1)),
              BYTES(NUMBER(1), NUMBER(0), NUMBER(0), NUMBER(1)), 2, BYTES(CELL(1, 0), CELL(1, 1)), 8, NUMBER(0), NUMBER(1)),
    BOTH_WAYS(BYTES(2, 1, 0), "a relay behind A", A_AND_RELAY, BYTES(A_CELLS(7, 6), CELL(1, 0)),
              BYTES(NUMBER(1), NUMBER(0), NUMBER(1), NUMBER(1)), 2, BYTES(A_CELLS(8, 8), CELL(1, 1)), 12, NUMBER(8), NUMBER(6), NUMBER(1)),
    BOTH_WAYS(BYTES(0, 1, 2, 3, 4, 5, 6), "every place behind A", A_AND_EVERY_PLACE, BYTES(A_CELLS(0, 0), EVERY_PLACE_STARTED),
              BYTES(NUMBER(1), NUMBER(0), NUMBER(1), NUMBER(7)), 4, BYTES(A_CELLS(1, 1), EVERY_PLACE_LATER), 28, NUMBER(1), NUMBER(0),
              NUMBER(0), NUMBER(7), NUMBER(7), NUMBER(7), NUMBER(1)),
    BOTH_WAYS(BYTES(0, 1, 2, 3, 4, 5, 6), "every place before A", EVERY_PLACE_AND_A, BYTES(EVERY_PLACE_STARTED, A_CELLS(0, 0)),
              BYTES(NUMBER(1), NUMBER(7), NUMBER(1), NUMBER(0)), 4, BYTES(EVERY_PLACE_LATER, A_CELLS(1, 1)), 28, NUMBER(0), NUMBER(7),
              NUMBER(7), NUMBER(7), NUMBER(1), NUMBER(1), NUMBER(0)),

    REFUSED_BOTH_WAYS(BYTES(0, 1, 2), "12: A and F, the memory of A alone", 12, 0, 12, A_AND_F, A_CELLS(7, 6)),
    REFUSED_WITH_INPUT(BYTES(0, 1, 2), "13: A and F, in A", 13, 1, 12, A_AND_F, BYTES(CELL(1, 7), CELL(0, 0), CELL(0, 0)),
                       BYTES(NUMBER(1), NUMBER(0))),
    REFUSED_WITH_INPUT(BYTES(0, 1, 2), "13: A and F, in F", 13, 2, 12, A_AND_F, BYTES(A_CELLS(7, 6), CELL(0, 5)),
                       BYTES(NUMBER(1), NUMBER(0))),
    REFUSED_WITH_INPUT(BYTES(0, 1, 2), "13: A and F, in both", 13, 0, 12, A_AND_F, BYTES(CELL(0, 0), CELL(1, 6), CELL(0, 5)),
                       BYTES(NUMBER(1), NUMBER(0))),
    REFUSED_WITH_INPUT(BYTES(0, 1), "13: a kept Boolean behind a kept number", 13, 1, 8, COUNTER_AND_FLAG, BYTES(CELL(1, 70), CELL(1, 2)),
                       BYTES(NUMBER(1))),
    REFUSED_WITH_INPUT(BYTES(0, 1, 2), "14: A and G, the inputs of A alone", 14, 0, 12, A_AND_G, BYTES(A_CELLS(7, 6), CELL(1, 30)),
                       BYTES(NUMBER(1), NUMBER(0))),
    REFUSED_WITH_INPUT(BYTES(0, 1, 2), "15: A and G, in A", 15, 1, 12, A_AND_G, BYTES(A_CELLS(7, 6), CELL(1, 30)),
                       BYTES(NUMBER(1), NUMBER(2), NUMBER(2))),
    REFUSED_WITH_INPUT(BYTES(0, 1, 2), "15: A and G, in G", 15, 2, 12, A_AND_G, BYTES(A_CELLS(7, 6), CELL(1, 30)),
                       BYTES(NUMBER(1), NUMBER(0), NUMBER(2))),
    REFUSED_IN_ROUNDS("20: B and F", 20, 0, 8, B_AND_F, CELL(1, 9)),
    REFUSED_IN_ROUNDS("20: F and B, at the wire that B's is", 20, 1, 8, F_AND_B, CELL(1, 9)),
    {.name = "20: B and B", .call = call_rounds, .sheet = BYTES(B_AND_B), .output_length = 8, .refused = 20, .place = 0},
};

const struct table cases_of_joined = TABLE(rows);
