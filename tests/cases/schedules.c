/* Schedules that are made, and 21 where there is none, with its place and with the order in which the refusals are looked for. Rests on the
 * sheets of A to L, on the chains and on sheets of its own.
 */
#include "cases/chains.h"
#include "cases/rows.h"
#include "cases/sheets.h"

/* A length that would pass if only its lower sixteen bits were looked at. */
static const uint8_t wrapping_list[sixteen_bits + 2] = {0, 1};

#define SEVEN CONSTANT(7)

/* Wire 0 is a wire, and behind it are constants, so that only starting again at wire 0 gives it its early position. */
#define READS_WIRE_1 WIRES_3, WIRE(1), SEVEN, SEVEN
#define READS_WIRE_2 WIRES_4, WIRE(2), SEVEN, SEVEN, SEVEN
/* Wire 0 is wire 63, and all the others are constants; and all are. */
#define READS_WIRE_63 HEADER_OF_64, WIRE(63), TIMES_63(SEVEN)
#define CONSTANTS_64 HEADER_OF_64, TIMES_64(SEVEN)
/* Wire 1 is wire 3, that is wire 2, that is wire 0, that is wire 4. */
#define CHAIN_UP_AND_DOWN WIRES_5, WIRE(4), WIRE(3), WIRE(0), WIRE(2), SEVEN

/* Loops, as the names say; and wires that wait for a loop without being on one, also between two: wire 3 is wire 4 + wire 0, wire 4 is
 * wire 3, wire 0 is wire 1, and wires 1 and 2 are each other. */
#define LOOP_OF_2_AND_3 WIRES_4, SEVEN, SEVEN, WIRE(3), WIRE(2)
#define WIRE_0_WAITS_FOR_1 WIRES_2, WIRE(1), WIRE(1)
#define WIRE_0_WAITS_FOR_2_AND_3 WIRES_5, WIRE(2), SEVEN, WIRE(3), WIRE(2), WIRE(3)
#define WIRE_0_BETWEEN_LOOPS WIRES_5, WIRE(1), WIRE(2), WIRE(1), 8, WIRE(4), WIRE(0), WIRE(3)
#define LOOPS_OF_1_AND_4_OF_2_AND_3 WIRES_5, SEVEN, WIRE(4), WIRE(3), WIRE(2), WIRE(1)
#define WIRE_63_READS_ITSELF HEADER_OF_64, TIMES_63(SEVEN), WIRE(63)

/* What is no read: wire 0 is pre 0 (wire 0); 7 fby wire 0; pre 0 of ((wire 0) fby 7); 7 fby (wire 0 + (wire 0 fby 7)). */
#define UNDER_PRE 0, 1, 1, 1, 0, 16, NUMBER(0), WIRE(0)
#define RIGHT_OF_FBY 0, 1, 1, 1, 0, 17, SEVEN, WIRE(0)
#define LEFT_UNDER_PRE 0, 1, 1, 1, 0, 16, NUMBER(0), 17, WIRE(0), SEVEN
#define LEFT_ON_THE_RIGHT 0, 1, 1, 1, 0, 17, SEVEN, 8, WIRE(0), 17, WIRE(0), SEVEN
/* What is one again behind it: wire 0 is pre 0 (wire 0) + wire 1, and (7 fby wire 0) + wire 1. */
#define BEHIND_PRE WIRES_2, 8, 16, NUMBER(0), WIRE(0), WIRE(1), SEVEN
#define BEHIND_FBY WIRES_2, 8, 17, SEVEN, WIRE(0), WIRE(1), SEVEN
/* The left side of fby: wire 0 is wire 1 fby wire 0, (wire 1 fby wire 0) fby wire 0, and wire 0 fby 7. */
#define LEFT_OF_FBY WIRES_2, 17, WIRE(1), WIRE(0), SEVEN
#define LEFT_OF_LEFT WIRES_2, 17, 17, WIRE(1), WIRE(0), WIRE(0), SEVEN
#define LEFT_READS_ITSELF 0, 1, 1, 1, 0, 17, WIRE(0), SEVEN

/* Arms that are never chosen: wire 0 is present false do wire 1 else 7, present true do 7 else wire 1, and these with if. */
#define FIRST_ARM(kind) WIRES_2, kind, 0, 0, WIRE(1), SEVEN, SEVEN
#define SECOND_ARM(kind) WIRES_2, kind, 0, 1, SEVEN, WIRE(1), SEVEN
/* Conditions, wire 1 being true: wire 0 is if wire 1 then 7 else 7, the same with present, and reset every wire 1 of 7. */
#define CONDITION_OF_CHOICE(kind) 0, 2, 1, 0, 1, 0, kind, WIRE(1), SEVEN, SEVEN, 0, 1
#define CONDITION_OF_RESET 0, 2, 1, 0, 1, 0, 14, WIRE(1), SEVEN, 0, 1
/* Reset every false of wire 1. */
#define OPERAND_OF_RESET WIRES_2, 14, 0, 0, WIRE(1), SEVEN
/* Wire 0 is not (wire 1 and (wire 2 or (-(wire 3 + wire 4) compared with (wire 5 - wire 6)))), and the others are constants. */
#define OPERATIONS(comparison)                                                                                  \
    0, 7, 0, 0, 0, TIMES_4(1), 1, 0, 4, 6, WIRE(1), 7, WIRE(2), comparison, 5, 8, WIRE(3), WIRE(4), 9, WIRE(5), \
        WIRE(6), 0, 1, 0, 1, TIMES_4(SEVEN)

static const struct row rows[] = {
    MADE("A: 0 1", 1, SHEET_A, 0, 1),
    {.name = "B: no list", .call = call_make, .sheet = BYTES(SHEET_B), .schedule = BYTES(0), .refused = 21, .place = 0},
    {.name = "C: no list", .call = call_make, .sheet = BYTES(SHEET_C), .schedule = BYTES(0), .refused = 21, .place = 0},
    {.name = "D: no list", .call = call_make, .sheet = BYTES(SHEET_D), .schedule = LENT(1), .refused = 21, .place = 0},
    MADE("E: 2 1 0", 3, SHEET_E, 2, 1, 0),
    MADE("F: 0", 1, SHEET_F, 0),
    {.name = "L: no list", .call = call_make, .sheet = BYTES(SHEET_L), .schedule = LENT(5), .refused = 21, .place = 0},

    {.name = "E: over a list that is refused", .call = call_make, .sheet = BYTES(SHEET_E), .schedule = BYTES(0, 1, 2),
     .answer = 3, .schedule_after = BYTES(2, 1, 0)},
    {.name = "E: over wires that are not there", .call = call_make, .sheet = BYTES(SHEET_E), .schedule = BYTES(255, 3, 255),
     .answer = 3, .schedule_after = BYTES(2, 1, 0)},
    {.name = "E: over itself", .call = call_make, .sheet = BYTES(SHEET_E), .schedule = BYTES(2, 1, 0),
     .answer = 3, .schedule_after = BYTES(2, 1, 0)},
    {.name = "A: over 1 0, which passes too", .call = call_make, .sheet = BYTES(SHEET_A), .schedule = BYTES(1, 0),
     .answer = 1, .schedule_after = BYTES(0, 1)},

    MADE("again from wire 0", 2, READS_WIRE_1, 1, 0, 2),
    MADE("again from wire 0, later", 2, READS_WIRE_2, 1, 2, 0, 3),
    MADE("again from wire 0, last", 2, READS_WIRE_63, FROM_1_TO_63, 0),
    MADE("chain up and down", 5, CHAIN_UP_AND_DOWN, 4, 0, 2, 3, 1),
    MADE("64 constants", 1, CONSTANTS_64, 0, FROM_1_TO_63),
    MADE("chain of 64", 64, CHAIN_OF_64, DOWN_FROM_63),
    MADE("rising chain of 64", 64, RISING_CHAIN_OF_64, 0, FROM_1_TO_63),

    {.name = "21: loop of 64", .call = call_make, .sheet = BYTES(LOOP_OF_64), .schedule = BYTES(DOWN_FROM_63), .refused = 21,
     .place = 0},
    {.name = "21: the last wire reads itself", .call = call_make, .sheet = BYTES(WIRE_63_READS_ITSELF), .schedule = LENT(64),
     .refused = 21, .place = 63},
    {.name = "21: a wire that reads itself among others", .call = call_make,
     .sheet = BYTES(WIRES_3, SEVEN, 8, WIRE(0), WIRE(1), WIRE(0)), .schedule = BYTES(0, 1, 2), .refused = 21, .place = 1},
    {.name = "21: a loop that wire 0 does not come to", .call = call_make, .sheet = BYTES(LOOP_OF_2_AND_3),
     .schedule = BYTES(0, 1, 2, 3), .refused = 21, .place = 2},
    {.name = "21: wire 0 waits for a wire that reads itself", .call = call_make, .sheet = BYTES(WIRE_0_WAITS_FOR_1),
     .schedule = BYTES(1, 0), .refused = 21, .place = 1},
    {.name = "21: wires below and above wait for the loop", .call = call_make, .sheet = BYTES(WIRE_0_WAITS_FOR_2_AND_3),
     .schedule = LENT(5), .refused = 21, .place = 2},
    {.name = "21: wire 0 leads from a loop to a loop", .call = call_make, .sheet = BYTES(WIRE_0_BETWEEN_LOOPS), .schedule = LENT(5),
     .refused = 21, .place = 1},
    {.name = "21: a loop within another's numbers", .call = call_make, .sheet = BYTES(LOOPS_OF_1_AND_4_OF_2_AND_3),
     .schedule = LENT(5), .refused = 21, .place = 1},

    MADE("under a pre", 1, UNDER_PRE, 0),
    MADE("right of an fby", 1, RIGHT_OF_FBY, 0),
    MADE("left of an fby under a pre", 1, LEFT_UNDER_PRE, 0),
    MADE("left of an fby right of an fby", 1, LEFT_ON_THE_RIGHT, 0),
    MADE("behind a pre", 2, BEHIND_PRE, 1, 0),
    MADE("behind an fby", 2, BEHIND_FBY, 1, 0),
    MADE("left of an fby", 2, LEFT_OF_FBY, 1, 0),
    MADE("left of the left", 2, LEFT_OF_LEFT, 1, 0),
    {.name = "21: left of an fby", .call = call_make, .sheet = BYTES(LEFT_READS_ITSELF), .schedule = LENT(1), .refused = 21,
     .place = 0},
    MADE("first arm of present", 2, FIRST_ARM(13), 1, 0),
    MADE("second arm of present", 2, SECOND_ARM(13), 1, 0),
    MADE("first arm of if", 2, FIRST_ARM(12), 1, 0),
    MADE("second arm of if", 2, SECOND_ARM(12), 1, 0),
    MADE("condition of if", 2, CONDITION_OF_CHOICE(12), 1, 0),
    MADE("condition of present", 2, CONDITION_OF_CHOICE(13), 1, 0),
    MADE("condition of reset", 2, CONDITION_OF_RESET, 1, 0),
    MADE("operand of reset", 2, OPERAND_OF_RESET, 1, 0),
    MADE("operands of operations, less than", 2, OPERATIONS(10), 1, 2, 3, 4, 5, 6, 0),
    MADE("operands of operations, equal", 2, OPERATIONS(11), 1, 2, 3, 4, 5, 6, 0),

    {.name = "2: before 17", .call = call_make, .sheet = BYTES(WIRES_2, WIRE(1), 2), .schedule = BYTES(0), .refused = 2, .place = 9},
    {.name = "3: before 17", .call = call_make, .sheet = BYTES(0, 65), .schedule = LENT(65), .refused = 3, .place = 1},
    {.name = "7: before 17", .call = call_make, .sheet = BYTES(WIRES_2, WIRE(2), WIRE(1)), .schedule = BYTES(1, 0, 2), .refused = 7,
     .place = 6},
    {.name = "9: before 21", .call = call_make, .sheet = BYTES(WIRES_2, WIRE(0), 0, 1), .schedule = BYTES(0, 1), .refused = 9,
     .place = 8},
    {.name = "11: before 17", .call = call_make, .sheet = BYTES(SHEET_A, 0), .schedule = BYTES(0, 1, 2), .refused = 11, .place = 40},
    {.name = "11: before 21", .call = call_make, .sheet = BYTES(SHEET_B, 0), .schedule = BYTES(0), .refused = 11, .place = 7},

    {.name = "17: no list", .call = call_make, .sheet = BYTES(SHEET_E), .refused = 17, .place = 0},
    {.name = "17: a wire short", .call = call_make, .sheet = BYTES(SHEET_E), .schedule = BYTES(2, 1), .refused = 17, .place = 0},
    {.name = "17: a wire more", .call = call_make, .sheet = BYTES(SHEET_E), .schedule = BYTES(2, 1, 0, 3), .refused = 17, .place = 0},
    {.name = "17: 65 bytes for 64 wires", .call = call_make, .sheet = BYTES(CHAIN_OF_64), .schedule = LENT(65), .refused = 17,
     .place = 0},
    {.name = "17: sixteen bits more", .call = call_make, .sheet = BYTES(SHEET_A), .schedule = {wrapping_list, sixteen_bits + 2},
     .refused = 17, .place = 0},
    {.name = "17: no list, before 21", .call = call_make, .sheet = BYTES(SHEET_L), .refused = 17, .place = 0},
    {.name = "17: a wire short, before 21", .call = call_make, .sheet = BYTES(SHEET_L), .schedule = BYTES(0, 1, 2, 3), .refused = 17,
     .place = 0},
    {.name = "17: a wire more, before 21", .call = call_make, .sheet = BYTES(WIRE_0_WAITS_FOR_1), .schedule = BYTES(1, 0, 2),
     .refused = 17, .place = 0}
};

const struct table cases_of_schedules = TABLE(rows);
