/* Kept wires and kind 18, which gives the last value of one (document 02, K7): the check, the memory, both instants, schedules and refusal
 * 20. Rests on the words of the rows, on the lists of the chains and on sheets of its own.
 */
#include "cases/chains.h"
#include "cases/ways.h"

/* ---- Sheets for the check ---- */

#define TIMES_59(...) TIMES_32(__VA_ARGS__), TIMES_16(__VA_ARGS__), TIMES_8(__VA_ARGS__), TWICE(__VA_ARGS__), __VA_ARGS__
#define TIMES_60(...) TIMES_32(__VA_ARGS__), TIMES_16(__VA_ARGS__), TIMES_8(__VA_ARGS__), TIMES_4(__VA_ARGS__)
#define TIMES_62(...) TIMES_60(__VA_ARGS__), TWICE(__VA_ARGS__)

/* Sixty-four kept Booleans, wire 63 the output: 68 bytes. Then each of them is true, or the last of wire 63. */
#define HEADER_OF_64_KEPT 0, 64, TIMES_64(2), 1, 63
#define KEPT_64 HEADER_OF_64_KEPT, TIMES_64(BOOLEAN(1))
#define LASTS_64 HEADER_OF_64_KEPT, TIMES_64(LAST(63))
/* A pre in the first of them, and in the last. */
#define PRE_IN_WIRE_0 HEADER_OF_64_KEPT, 15, 0, 0, 0, TIMES_63(BOOLEAN(1))
#define PRE_IN_WIRE_63 HEADER_OF_64_KEPT, TIMES_63(BOOLEAN(1)), 15, 0, 0, 0
/* Only wire 63 is kept, and the others have a pre each; then wire 62 has two. The header has 68 bytes and a pre four. */
#define HEADER_OF_LAST_KEPT 0, 64, TIMES_63(0), 2, 1, 63
#define PRES_63 HEADER_OF_LAST_KEPT, TIMES_63(15, 0, 0, 0), BOOLEAN(1)
#define PRES_64 HEADER_OF_LAST_KEPT, TIMES_62(15, 0, 0, 0), 15, 0, 15, 0, 0, 0, BOOLEAN(1)
/* Sixty kept Booleans, wire 0 the output: 64 bytes. Wire 0 is pre true (pre false (pre true (pre false (false)))), or five pres. */
#define HEADER_OF_60_KEPT 0, 60, TIMES_60(2), 1, 0
#define KEPT_60_AND_4_PRES HEADER_OF_60_KEPT, 15, 1, 15, 0, 15, 1, 15, 0, 0, 0, TIMES_59(BOOLEAN(1))
#define KEPT_60_AND_5_PRES HEADER_OF_60_KEPT, 15, 1, 15, 0, 15, 1, 15, 0, 15, 1, 0, 0, TIMES_59(BOOLEAN(1))
#define KEPT_60_AND_5_PRES_AT_THE_END HEADER_OF_60_KEPT, TIMES_59(BOOLEAN(1)), 15, 1, 15, 0, 15, 1, 15, 0, 15, 1, 0, 0

/* One kept Boolean; one kept number; two numbers of which the first is kept, or the second. Wire 0 is the output. */
#define KEPT_BOOLEAN 0, 1, 2, 1, 0
#define KEPT_NUMBER 0, 1, 3, 1, 0
#define FIRST_KEPT 0, 2, 3, 1, 1, 0
#define SECOND_KEPT 0, 2, 1, 3, 1, 0

/* ---- Sheets for instants ---- */

/* Wire 0 is the last of wire 0, a Boolean, and wire 1 the last of wire 1, a number. */
#define TWO_LASTS 0, 2, 2, 3, 2, 0, 1, LAST(0), LAST(1)
/* Wire 0: pre 5 (wire 0); wire 1, kept: pre true (false); wire 2, kept: 7 fby 8; wire 3: pre 6 (last of wire 2). */
#define KEPT_BETWEEN_OTHERS                                                                                                         \
    0, 4, 1, 2, 3, 1, 4, 0, 1, 2, 3, 16, NUMBER(5), WIRE(0), 15, 1, 0, 0, 17, CONSTANT(7), CONSTANT(8), 16, NUMBER(6), LAST(2)
/* Inputs: opened, service. Wire 0, kept: reset every service of (its last or opened); wire 1: the same with a pre of false. */
#define TAMPER 2, 0, 0, 2, 2, 0, 2, 0, 1, 14, INPUT(1), 7, LAST(0), INPUT(0), 14, INPUT(1), 7, 15, 0, WIRE(1), INPUT(0)
/* Wire 0 is the last of wire 1; wire 1, kept, is its last + 1. */
#define READ_BY_EARLIER_WIRE 0, 2, 1, 3, 2, 0, 1, LAST(1), 8, LAST(1), CONSTANT(1)
/* Wire 0, kept: its last + 1. */
#define COUNTER KEPT_NUMBER, 8, LAST(0), CONSTANT(1)

/* Wire 0, kept, is the number input; wire 1 is the last of wire 0 in some place, or wire 0 less its last. */
#define INPUT_AND(...) 1, 1, 2, 3, 1, 2, 0, 1, INPUT(0), __VA_ARGS__
#define LAST_UNDER_PRE INPUT_AND(16, NUMBER(9), LAST(0))
#define LAST_LEFT_OF_FBY INPUT_AND(17, LAST(0), CONSTANT(20))
#define LAST_RIGHT_OF_FBY INPUT_AND(17, CONSTANT(9), LAST(0))
#define DIFFERENCE_TO_LAST INPUT_AND(9, WIRE(0), LAST(0))
/* Wire 0 is pre 9 (last of wire 1), and wire 1, kept, is the input: the kept cell has the higher number. */
#define KEPT_BEHIND_PRE 1, 1, 2, 1, 3, 2, 0, 1, 16, NUMBER(9), LAST(1), INPUT(0)

/* Wire 0, kept: present input 0 do its last + 1 else pre 50 (its last); and that under a reset every input 1. */
#define LASTS_IN_ARMS 13, INPUT(0), 8, LAST(0), CONSTANT(1), 16, NUMBER(50), LAST(0)
#define KEPT_BY_ARMS 1, 0, 1, 3, 1, 0, LASTS_IN_ARMS
#define KEPT_BY_ARMS_UNDER_RESET 2, 0, 0, 1, 3, 1, 0, 14, INPUT(1), LASTS_IN_ARMS
/* Wire 0, kept: reset every true of reset every true of its last + 1; and reset every input 0 of (10 fby 20). */
#define COUNTER_UNDER_RESETS KEPT_NUMBER, 14, BOOLEAN(1), 14, BOOLEAN(1), 8, LAST(0), CONSTANT(1)
#define KEPT_FBY_UNDER_RESET 1, 0, 1, 3, 1, 0, 14, INPUT(0), 17, CONSTANT(10), CONSTANT(20)
/* Wire 0, kept: not its last; wire 1: reset every last of wire 0 of (pre 0 (wire 1) + 1). */
#define RESET_BY_LAST 0, 2, 2, 1, 2, 0, 1, 4, LAST(0), 14, LAST(0), 8, 16, NUMBER(0), WIRE(1), CONSTANT(1)

/* Wire 0, kept, is its last + 1 and wire 1 is wire 1; and wire 0, kept, is wire 0. */
#define COUNTER_BESIDE_LOOP FIRST_KEPT, 8, LAST(0), CONSTANT(1), WIRE(1)
#define KEPT_LOOP KEPT_NUMBER, WIRE(0)
/* Wire 0, kept, is its last + wire 1, and wire 1 is wire 1. */
#define LAST_OF_ITSELF_WAITS FIRST_KEPT, 8, LAST(0), WIRE(1), WIRE(1)
/* Wire 0, kept, is wire 1; wire 1 is the last of wire 0 + wire 2; wire 2 is wire 2. */
#define LAST_LEADS_BACK 0, 3, 3, 1, 1, 1, 0, WIRE(1), 8, LAST(0), WIRE(2), WIRE(2)
/* Wire 0 is itself where the last of wire 1 is true, else 5; wire 1, kept, is true. */
#define LAST_CHOOSES_LOOP 0, 2, 1, 2, 1, 0, 13, LAST(1), WIRE(0), CONSTANT(5), BOOLEAN(1)

/* Wire 0 is the last of wire 1; wire 1, kept, is wire 0. */
#define LAST_AGAINST_READ 0, 2, 1, 3, 2, 0, 1, LAST(1), WIRE(0)
/* Two kept wires, each the last of the other. */
#define LASTS_OF_EACH_OTHER 0, 2, 3, 3, 2, 0, 1, LAST(1), LAST(0)

static const struct row rows[] = {
    PASSES("64 kept wires", 64, KEPT_64),
    PASSES("64 kept wires, all a kind 18, which owns no cell", 64, LASTS_64),
    REFUSED("10: 64 kept wires, a pre in wire 0", 10, 68, PRE_IN_WIRE_0),
    REFUSED("10: 64 kept wires, a pre in wire 63", 10, 194, PRE_IN_WIRE_63),
    PASSES("wire 63 kept and 63 pres", 64, PRES_63),
    REFUSED("10: wire 63 kept and 64 pres before it", 10, 318, PRES_64),
    PASSES("60 kept wires and 4 pres", 64, KEPT_60_AND_4_PRES),
    REFUSED("10: 60 kept wires and 5 pres in wire 0", 10, 72, KEPT_60_AND_5_PRES),
    REFUSED("10: 60 kept wires and 5 pres in wire 59", 10, 190, KEPT_60_AND_5_PRES_AT_THE_END),
    REFUSED("10: 64 kept wires, an fby in wire 0", 10, 68, HEADER_OF_64_KEPT, 17, 0, 0, 0, 0, TIMES_63(BOOLEAN(1))),
    REFUSED("10: before the cut body", 10, 68, HEADER_OF_64_KEPT, 15),
    REFUSED("10: before 7", 10, 68, HEADER_OF_64_KEPT, 15, 2, 0, 0),
    REFUSED("10: before 9", 10, 68, HEADER_OF_64_KEPT, 16, NUMBER(0), CONSTANT(0)),
    REFUSED("8: before 10", 8, 84, HEADER_OF_64_KEPT, TIMES_16(4), 15),

    REFUSED("4: an input of type 2", 4, 1, 1, 2),
    REFUSED("4: an input of type 3", 4, 1, 1, 3),
    REFUSED("4: an input of type 4", 4, 1, 1, 4),
    REFUSED("4: the second input of type 3, the rest in order", 4, 2, 2, 1, 3, 1, 1, 1, 0, CONSTANT(7)),
    PASSES("a wire of type 2", 1, KEPT_BOOLEAN, BOOLEAN(1)),
    PASSES("a wire of type 3", 1, KEPT_NUMBER, CONSTANT(7)),
    REFUSED("4: a wire of type 4", 4, 2, 0, 1, 4, 1, 0, BOOLEAN(1)),
    REFUSED("4: a wire of type 255", 4, 2, 0, 1, 255, 1, 0, BOOLEAN(1)),
    REFUSED("4: a wire of type 4 behind kept ones", 4, 4, 0, 3, 2, 3, 4),
    REFUSED("2: no type of wire 1 behind a kept one", 2, 3, 0, 2, 3),

    REFUSED("6: kind 20", 6, 5, KEPT_NUMBER, 20, 0),
    REFUSED("8: kind 18 on level 17", 8, 21, KEPT_NUMBER, TIMES_16(5), LAST(0)),
    REFUSED("8: kind 18 on level 17, its body cut", 8, 21, KEPT_NUMBER, TIMES_16(5), 18),
    PASSES("kind 18 on level 16", 1, KEPT_NUMBER, TIMES_15(5), LAST(0)),
    REFUSED("2: the body of kind 18 cut", 2, 6, KEPT_NUMBER, 18),
    REFUSED("2: the body of kind 18 cut where no wire is kept", 2, 6, 0, 1, 1, 1, 0, 18),
    REFUSED("7: kind 18 of a wire that is not kept", 7, 6, FIRST_KEPT, LAST(1), CONSTANT(7)),
    REFUSED("7: kind 18 of itself, which is not kept", 7, 5, 0, 1, 1, 1, 0, LAST(0)),
    REFUSED("7: kind 18 of wire 2 of 2", 7, 6, FIRST_KEPT, LAST(2), CONSTANT(7)),
    REFUSED("7: kind 18 of wire 255", 7, 6, FIRST_KEPT, LAST(255), CONSTANT(7)),
    REFUSED("7: kind 18 of wire 64 of 64", 7, 68, HEADER_OF_64_KEPT, LAST(64)),
    REFUSED("7: kind 18 of a wire that is not kept, before 9", 7, 6, 0, 2, 3, 0, 1, 0, LAST(1), BOOLEAN(1)),
    REFUSED("7: the second of two kinds 18", 7, 9, FIRST_KEPT, 8, LAST(0), LAST(1), CONSTANT(7)),
    REFUSED("9: kind 18 of a kept Boolean for a number", 9, 6, 0, 2, 1, 2, 1, 0, LAST(1), BOOLEAN(1)),
    REFUSED("9: kind 18 of a kept number for a Boolean", 9, 6, 0, 2, 0, 3, 1, 0, LAST(1), CONSTANT(7)),
    REFUSED("9: kind 18 of a kept number as a condition", 9, 7, SECOND_KEPT, 12, LAST(1), CONSTANT(1), CONSTANT(2), CONSTANT(7)),
    PASSES("kind 2 of a kept number", 1, SECOND_KEPT, WIRE(1), CONSTANT(7)),
    REFUSED("9: kind 2 of a kept Boolean for a number", 9, 6, 0, 2, 1, 2, 1, 0, WIRE(1), BOOLEAN(1)),
    REFUSED("9: a Boolean for a kept number", 9, 5, KEPT_NUMBER, BOOLEAN(1)),
    REFUSED("9: a number for a kept Boolean", 9, 5, KEPT_BOOLEAN, CONSTANT(7)),

    STARTS("64 kept wires: start", KEPT_64, LENT(320), TIMES_64(CELL(1, 0))),
    STARTS("60 kept wires and 4 pres: start", KEPT_60_AND_4_PRES, LENT(320), CELL(1, 0), CELL(1, 1), CELL(1, 0), CELL(1, 1), CELL(1, 0),
           TIMES_59(CELL(1, 0))),
    STARTS("kept cells between others: start", KEPT_BETWEEN_OTHERS, BYTES(TIMES_4(CELL(9, 9)), CELL(8, 8), CELL(0, 7)), CELL(1, 5),
           CELL(1, 0), CELL(1, 1), CELL(1, 0), CELL(0, 0), CELL(1, 6)),
    STARTS("two lasts: start over what was kept", TWO_LASTS, BYTES(CELL(1, 1), CELL(1, 200)), CELL(1, 0), CELL(1, 0)),
    {.name = "12: start without the kept cells", .call = call_start, .sheet = BYTES(KEPT_BETWEEN_OTHERS), .memory = LENT(20),
     .refused = 12, .place = 0},
    {.name = "12: rounds without the kept cell", .call = call_rounds, .sheet = BYTES(COUNTER), .output_length = 4, .refused = 12,
     .place = 0},
    REFUSED_BOTH_WAYS(BYTES(0), "12: a cell more", 12, 0, 4, COUNTER, CELL(1, 0), CELL(1, 0)),

    REFUSED_BOTH_WAYS(BYTES(0, 1), "13: kept Boolean with mark 0", 13, 0, 8, TWO_LASTS, CELL(0, 0), CELL(1, 0)),
    REFUSED_BOTH_WAYS(BYTES(0, 1), "13: kept number with mark 0", 13, 1, 8, TWO_LASTS, CELL(1, 1), CELL(0, 0)),
    REFUSED_BOTH_WAYS(BYTES(0, 1), "13: kept number with mark 2", 13, 1, 8, TWO_LASTS, CELL(1, 1), CELL(2, 5)),
    REFUSED_BOTH_WAYS(BYTES(0, 1), "13: kept Boolean with 2", 13, 0, 8, TWO_LASTS, CELL(1, 2), CELL(1, 0)),
    REFUSED_BOTH_WAYS(BYTES(0, 1), "13: kept Boolean with 256", 13, 0, 8, TWO_LASTS, STARTED_CELL(0, 1, 0, 0), CELL(0, 0)),
    BOTH_WAYS(BYTES(1, 0), "a kept number may be anything", TWO_LASTS, BYTES(CELL(1, 1), STARTED_CELL(LEAST_NUMBER)), NOTHING, 2,
              BYTES(CELL(1, 1), STARTED_CELL(LEAST_NUMBER)), 8, NUMBER(1), LEAST_NUMBER),
    REFUSED_BOTH_WAYS(BYTES(0, 1, 2, 3), "13: mark 0 of a kept cell before that of its fby", 13, 3, 16, KEPT_BETWEEN_OTHERS, CELL(1, 5),
                      CELL(1, 0), CELL(1, 1), CELL(0, 0), CELL(0, 0), CELL(1, 6)),
    REFUSED_BOTH_WAYS(BYTES(0, 1, 2, 3), "13: a kept Boolean with 2 between others", 13, 1, 16, KEPT_BETWEEN_OTHERS, CELL(1, 5),
                      CELL(1, 2), CELL(1, 2), CELL(1, 0), CELL(0, 0), CELL(1, 6)),
    REFUSED_BOTH_WAYS(BYTES(DOWN_FROM_63), "13: the last of 64 kept cells", 13, 63, 4, LASTS_64, TIMES_63(CELL(1, 1)), CELL(1, 2)),

    BOTH_WAYS(BYTES(DOWN_FROM_63), "64 kept wires", KEPT_64, BYTES(TIMES_64(CELL(1, 0))), NOTHING, 2, BYTES(TIMES_64(CELL(1, 1))), 4,
              NUMBER(1)),
    BOTH_WAYS(BYTES(0, FROM_1_TO_63), "64 kinds 18 of wire 63", LASTS_64, BYTES(TIMES_63(CELL(1, 0)), CELL(1, 1)), NOTHING, 2,
              BYTES(TIMES_64(CELL(1, 1))), 4, NUMBER(1)),
    BOTH_WAYS(BYTES(3, 2, 1, 0), "kept cells between others: first instant", KEPT_BETWEEN_OTHERS,
              BYTES(CELL(1, 5), CELL(1, 0), CELL(1, 1), CELL(1, 0), CELL(0, 0), CELL(1, 6)), NOTHING, 2,
              BYTES(CELL(1, 5), CELL(1, 1), CELL(1, 0), CELL(1, 7), CELL(1, 8), CELL(1, 0)), 16,
              NUMBER(5), NUMBER(1), NUMBER(7), NUMBER(6)),
    BOTH_WAYS(BYTES(2, 3, 0, 1), "kept cells between others: second instant", KEPT_BETWEEN_OTHERS,
              BYTES(CELL(1, 5), CELL(1, 1), CELL(1, 0), CELL(1, 7), CELL(1, 8), CELL(1, 0)), NOTHING, 2,
              BYTES(CELL(1, 5), CELL(1, 0), CELL(1, 0), CELL(1, 8), CELL(1, 8), CELL(1, 7)), 16,
              NUMBER(5), NUMBER(0), NUMBER(8), NUMBER(0)),
    BOTH_WAYS(BYTES(0, 1, 2, 3), "kept cells between others: third instant", KEPT_BETWEEN_OTHERS,
              BYTES(CELL(1, 5), CELL(1, 0), CELL(1, 0), CELL(1, 8), CELL(1, 8), CELL(1, 7)), NOTHING, 2,
              BYTES(CELL(1, 5), CELL(1, 0), CELL(1, 0), CELL(1, 8), CELL(1, 8), CELL(1, 8)), 16,
              NUMBER(5), NUMBER(0), NUMBER(8), NUMBER(7)),

    BOTH_WAYS(BYTES(0, 1), "tamper: opened", TAMPER, BYTES(CELL(1, 0), CELL(1, 0)), BYTES(NUMBER(1), NUMBER(0)), 2,
              BYTES(CELL(1, 1), CELL(1, 1)), 8, NUMBER(1), NUMBER(1)),
    BOTH_WAYS(BYTES(1, 0), "tamper: closed again", TAMPER, BYTES(CELL(1, 1), CELL(1, 1)), BYTES(NUMBER(0), NUMBER(0)), 2,
              BYTES(CELL(1, 1), CELL(1, 1)), 8, NUMBER(1), NUMBER(1)),
    BOTH_WAYS(BYTES(1, 0), "tamper: the reset clears the pre alone", TAMPER, BYTES(CELL(1, 1), CELL(1, 1)),
              BYTES(NUMBER(0), NUMBER(1)), 2, BYTES(CELL(1, 1), CELL(1, 0)), 8, NUMBER(1), NUMBER(0)),
    BOTH_WAYS(BYTES(0, 1), "tamper: after the reset", TAMPER, BYTES(CELL(1, 1), CELL(1, 0)), BYTES(NUMBER(0), NUMBER(0)), 2,
              BYTES(CELL(1, 1), CELL(1, 0)), 8, NUMBER(1), NUMBER(0)),
    BOTH_WAYS(BYTES(0, 1), "tamper: a reset before anything", TAMPER, BYTES(CELL(1, 0), CELL(1, 0)), BYTES(NUMBER(0), NUMBER(1)), 2,
              BYTES(CELL(1, 0), CELL(1, 0)), 8, NUMBER(0), NUMBER(0)),
    {.name = "tamper: previewed", .call = call_preview, .sheet = BYTES(TAMPER), .memory = BYTES(CELL(1, 0), CELL(1, 1)),
     .input = BYTES(NUMBER(1), NUMBER(1)), .output_length = 8, .answer = 2, .output_after = BYTES(NUMBER(1), NUMBER(1))},

    BOTH_WAYS(BYTES(0, 1), "read by an earlier wire", READ_BY_EARLIER_WIRE, BYTES(CELL(1, 41)), NOTHING, 2, BYTES(CELL(1, 42)), 8,
              NUMBER(41), NUMBER(42)),
    {.name = "read by an earlier wire along 1 0", .call = call_scheduled, .sheet = BYTES(READ_BY_EARLIER_WIRE),
     .memory = BYTES(CELL(1, 41)), .output_length = 8, .schedule = BYTES(1, 0), .memory_after = BYTES(CELL(1, 42)),
     .output_after = BYTES(NUMBER(41), NUMBER(42))},
    BOTH_WAYS(BYTES(0), "counter: first instant", COUNTER, BYTES(CELL(1, 0)), NOTHING, 2, BYTES(CELL(1, 1)), 4, NUMBER(1)),
    BOTH_WAYS(BYTES(0), "counter: second instant", COUNTER, BYTES(CELL(1, 1)), NOTHING, 2, BYTES(CELL(1, 2)), 4, NUMBER(2)),
    BOTH_WAYS(BYTES(0), "counter: full", COUNTER, BYTES(STARTED_CELL(GREATEST_NUMBER)), NOTHING, 2,
              BYTES(STARTED_CELL(GREATEST_NUMBER)), 4, GREATEST_NUMBER),

    BOTH_WAYS(BYTES(0, 1), "a pre stores the old kept value", LAST_UNDER_PRE, BYTES(CELL(1, 3), CELL(1, 9)), BYTES(NUMBER(5)), 2,
              BYTES(CELL(1, 5), CELL(1, 3)), 8, NUMBER(5), NUMBER(9)),
    BOTH_WAYS(BYTES(1, 0), "a pre stores the old kept value of a later wire", KEPT_BEHIND_PRE, BYTES(CELL(1, 9), CELL(1, 0)),
              BYTES(NUMBER(5)), 2, BYTES(CELL(1, 0), CELL(1, 5)), 8, NUMBER(9), NUMBER(5)),
    BOTH_WAYS(BYTES(0, 1), "a pre stores the old kept value of a later wire, once more", KEPT_BEHIND_PRE, BYTES(CELL(1, 0), CELL(1, 5)),
              BYTES(NUMBER(6)), 2, BYTES(CELL(1, 5), CELL(1, 6)), 8, NUMBER(0), NUMBER(6)),
    BOTH_WAYS(BYTES(0, 1), "left of an fby not started", LAST_LEFT_OF_FBY, BYTES(CELL(1, 3), CELL(0, 0)), BYTES(NUMBER(5)), 2,
              BYTES(CELL(1, 5), CELL(1, 20)), 8, NUMBER(5), NUMBER(3)),
    BOTH_WAYS(BYTES(0, 1), "left of a started fby", LAST_LEFT_OF_FBY, BYTES(CELL(1, 5), CELL(1, 20)), BYTES(NUMBER(6)), 2,
              BYTES(CELL(1, 6), CELL(1, 20)), 8, NUMBER(6), NUMBER(20)),
    BOTH_WAYS(BYTES(0, 1), "right of an fby not started", LAST_RIGHT_OF_FBY, BYTES(CELL(1, 3), CELL(0, 0)), BYTES(NUMBER(5)), 2,
              BYTES(CELL(1, 5), CELL(1, 3)), 8, NUMBER(5), NUMBER(9)),
    BOTH_WAYS(BYTES(1, 0), "right of a started fby", LAST_RIGHT_OF_FBY, BYTES(CELL(1, 5), CELL(1, 3)), BYTES(NUMBER(6)), 2,
              BYTES(CELL(1, 6), CELL(1, 5)), 8, NUMBER(6), NUMBER(3)),
    BOTH_WAYS(BYTES(0, 1), "kind 2 gives the new value, kind 18 the old", DIFFERENCE_TO_LAST, BYTES(CELL(1, 100)), BYTES(NUMBER(130)), 3,
              BYTES(CELL(1, 130)), 8, NUMBER(130), NUMBER(30)),

    BOTH_WAYS(BYTES(0), "the first arm chosen, the other keeps its memory", KEPT_BY_ARMS, BYTES(CELL(1, 4), CELL(1, 60)),
              BYTES(NUMBER(1)), 2, BYTES(CELL(1, 5), CELL(1, 60)), 4, NUMBER(5)),
    BOTH_WAYS(BYTES(0), "the second arm chosen", KEPT_BY_ARMS, BYTES(CELL(1, 4), CELL(1, 60)), BYTES(NUMBER(0)), 2,
              BYTES(CELL(1, 60), CELL(1, 4)), 4, NUMBER(60)),
    BOTH_WAYS(BYTES(0), "under a reset that fires, first arm", KEPT_BY_ARMS_UNDER_RESET, BYTES(CELL(1, 4), CELL(1, 60)),
              BYTES(NUMBER(1), NUMBER(1)), 2, BYTES(CELL(1, 5), CELL(1, 50)), 4, NUMBER(5)),
    BOTH_WAYS(BYTES(0), "under a reset that fires, second arm", KEPT_BY_ARMS_UNDER_RESET, BYTES(CELL(1, 4), CELL(1, 60)),
              BYTES(NUMBER(0), NUMBER(1)), 2, BYTES(CELL(1, 50), CELL(1, 4)), 4, NUMBER(50)),
    BOTH_WAYS(BYTES(0), "under a reset that does not fire", KEPT_BY_ARMS_UNDER_RESET, BYTES(CELL(1, 4), CELL(1, 60)),
              BYTES(NUMBER(0), NUMBER(0)), 2, BYTES(CELL(1, 60), CELL(1, 4)), 4, NUMBER(60)),
    BOTH_WAYS(BYTES(0), "under two resets that always fire", COUNTER_UNDER_RESETS, BYTES(CELL(1, 10)), NOTHING, 2, BYTES(CELL(1, 11)), 4,
              NUMBER(11)),
    BOTH_WAYS(BYTES(0), "a fresh fby's value is kept", KEPT_FBY_UNDER_RESET, BYTES(CELL(1, 20), CELL(1, 20)), BYTES(NUMBER(1)), 2,
              BYTES(CELL(1, 10), CELL(1, 20)), 4, NUMBER(10)),
    BOTH_WAYS(BYTES(1, 0), "a reset by a last that is false", RESET_BY_LAST, BYTES(CELL(1, 0), CELL(1, 5)), NOTHING, 2,
              BYTES(CELL(1, 1), CELL(1, 6)), 8, NUMBER(1), NUMBER(6)),
    BOTH_WAYS(BYTES(0, 1), "a reset by a last that is true", RESET_BY_LAST, BYTES(CELL(1, 1), CELL(1, 6)), NOTHING, 2,
              BYTES(CELL(1, 0), CELL(1, 1)), 8, NUMBER(0), NUMBER(1)),

    REFUSED_IN_ROUNDS("20: nothing is kept of a refused instant", 20, 1, 4, COUNTER_BESIDE_LOOP, CELL(1, 6)),
    REFUSED_IN_ROUNDS("20: a kept wire that is itself", 20, 0, 4, KEPT_LOOP, CELL(1, 6)),
    REFUSED_IN_ROUNDS("20: a wire does not wait for its last", 20, 1, 4, LAST_OF_ITSELF_WAITS, CELL(1, 3)),
    REFUSED_IN_ROUNDS("20: no loop leads through a last", 20, 2, 4, LAST_LEADS_BACK, CELL(1, 3)),
    REFUSED_IN_ROUNDS("20: a last that is true chooses the loop", 20, 0, 4, LAST_CHOOSES_LOOP, CELL(1, 1)),
    {.name = "a last that is false does not choose the loop", .call = call_rounds, .sheet = BYTES(LAST_CHOOSES_LOOP),
     .memory = BYTES(CELL(1, 0)), .output_length = 4, .answer = 2, .memory_after = BYTES(CELL(1, 1)), .output_after = BYTES(NUMBER(5))},

    BOTH_WAYS(BYTES(0, 1), "a last of a later wire is no read", LAST_AGAINST_READ, BYTES(CELL(1, 8)), NOTHING, 3, BYTES(CELL(1, 8)), 8,
              NUMBER(8), NUMBER(8)),
    REFUSED_ALONG(BYTES(1, 0), "19: the read the other way round", 19, 0, 8, LAST_AGAINST_READ, CELL(1, 8)),
    REFUSED_ALONG(BYTES(0, 1), "19: a loop beside a counter", 19, 1, 4, COUNTER_BESIDE_LOOP, CELL(1, 6)),
    BOTH_WAYS(BYTES(1, 0), "lasts of each other", LASTS_OF_EACH_OTHER, BYTES(CELL(1, 3), CELL(1, 4)), NOTHING, 2,
              BYTES(CELL(1, 4), CELL(1, 3)), 8, NUMBER(4), NUMBER(3)),

    MADE("a last of itself", 1, COUNTER, 0),
    MADE("lasts of each other", 1, LASTS_OF_EACH_OTHER, 0, 1),
    MADE("a last against a read", 2, LAST_AGAINST_READ, 0, 1),
    MADE("64 kinds 18", 1, LASTS_64, 0, FROM_1_TO_63),
    MADE("a last beside a read", 2, DIFFERENCE_TO_LAST, 0, 1),
    {.name = "21: a loop beside a counter", .call = call_make, .sheet = BYTES(COUNTER_BESIDE_LOOP), .schedule = LENT(2), .refused = 21,
     .place = 1},
    {.name = "21: no loop leads through a last", .call = call_make, .sheet = BYTES(LAST_LEADS_BACK), .schedule = LENT(3), .refused = 21,
     .place = 2},
};

const struct table cases_of_kept = TABLE(rows);
