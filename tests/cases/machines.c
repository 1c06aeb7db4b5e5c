/* Machines with two states, kind 19 (document 02, K8): the check, the memory, both instants, schedules and the place of refusal 20. A machine
 * is written as its kind, the leave-conditions of states 0 and 1, and the bodies of states 0 and 1; its cell comes before those of these. Rests
 * on the words of the rows and on sheets of its own.
 */
#include "cases/chains.h"
#include "cases/ways.h"

/* One wire, the output, with no inputs, one Boolean input or two. */
#define BOOLEAN_WIRE 0, 1, 0, 1, 0
#define NUMBER_WIRE 0, 1, 1, 1, 0
#define NUMBER_BY_INPUT 1, 0, 1, 1, 1, 0
#define NUMBER_BY_2_INPUTS 2, 0, 0, 1, 1, 1, 0

/* ---- Sheets for the check ---- */

/* A machine that stays in state 0, of numbers and of Booleans: 15 and 9 bytes. */
#define RESTING_NUMBER 19, NEVER, NEVER, CONSTANT(1), CONSTANT(2)
#define RESTING_BOOLEAN 19, NEVER, NEVER, NEVER, ALWAYS

#define TIMES_14(...) TWICE(TIMES_7(__VA_ARGS__))

/* Machines in body 1 of one another, fifteen of ten bytes each, the last on level 15, and 9 on level 16; then sixteen. */
#define BODIES_TO_LEVEL_16 NUMBER_WIRE, TIMES_15(19, NEVER, NEVER, CONSTANT(1)), CONSTANT(9)
#define BODIES_TO_LEVEL_17 NUMBER_WIRE, TIMES_16(19, NEVER, NEVER, CONSTANT(1)), CONSTANT(9)
/* Fifteen machines in condition 0 of one another, the last of which is true; their other operands follow from the inside out. */
#define CONDITIONS_TO_LEVEL_16 BOOLEAN_WIRE, TIMES_15(19), ALWAYS, TIMES_15(NEVER, ALWAYS, NEVER)

/* Sixty-four Booleans, wire 63 the output: 68 bytes. */
#define HEADER_OF_64_BOOLEANS 0, 64, TIMES_64(0), 1, 63
#define MACHINES_64 HEADER_OF_64_BOOLEANS, TIMES_64(RESTING_BOOLEAN)
/* A machine in condition 0 of the last of them, and a pre in its body 1. */
#define MACHINES_65 HEADER_OF_64_BOOLEANS, TIMES_63(RESTING_BOOLEAN), 19, RESTING_BOOLEAN, NEVER, NEVER, NEVER
#define MACHINES_64_AND_PRE HEADER_OF_64_BOOLEANS, TIMES_63(RESTING_BOOLEAN), 19, NEVER, NEVER, NEVER, 15, 0, NEVER
/* Sixty-three pres, and another in wire 63, with a machine under it. */
#define PRES_64 HEADER_OF_64_BOOLEANS, TIMES_63(15, 0, NEVER), 15, 0

/* ---- Sheets for instants ---- */

/* The input is the contact of a relay, which is closed in state 1. It closes when the contact held twice, and opens when it did not hold
 * twice: the pres of the conditions rest while these are not asked. */
#define RELAY 1, 0, 1, 0, 1, 0, 19, 6, INPUT(0), 15, 0, INPUT(0), 6, 4, INPUT(0), 15, 0, 4, INPUT(0), NEVER, ALWAYS

/* Left where the input holds; the bodies are pre 10 (wire 0) + 1 and 100 fby (wire 0 + 1). */
#define COUNTING NUMBER_BY_INPUT, 19, INPUT(0), INPUT(0), 8, 16, NUMBER(10), WIRE(0), CONSTANT(1), 17, CONSTANT(100), 8, WIRE(0), CONSTANT(1)

/* Left at every instant, and never. */
#define ALTERNATING NUMBER_WIRE, 19, ALWAYS, ALWAYS, CONSTANT(1), CONSTANT(2)
#define NEVER_LEFT NUMBER_WIRE, 19, NEVER, NEVER, CONSTANT(1), CONSTANT(2)

/* With memory in every operand: pres of input 0, which begin with first and second, pre 10 (wire 0 + 1), and 100 fby 200. */
#define FOUR_MEMORIES(first, second)                                                                                               \
    19, 15, first, INPUT(0), 15, second, INPUT(0), 16, NUMBER(10), 8, WIRE(0), CONSTANT(1), 17, CONSTANT(100), CONSTANT(200)
/* The same under a reset every input 1: fresh it stays in state 0, and in the second sheet it leaves that. */
#define STAYS_WHEN_FRESH NUMBER_BY_2_INPUTS, 14, INPUT(1), FOUR_MEMORIES(0, 1)
#define LEAVES_WHEN_FRESH NUMBER_BY_2_INPUTS, 14, INPUT(1), FOUR_MEMORIES(1, 0)

/* Condition 0 is pre false (pre false (input)), state 1 is never left, and the bodies are 1 and 2. */
#define PRES_IN_CONDITION NUMBER_BY_INPUT, 19, 15, 0, 15, 0, INPUT(0), NEVER, CONSTANT(1), CONSTANT(2)

/* It counts up to 3 and down to 0: the conditions are pre 0 (wire 0) = 3 and pre 9 (wire 0) = 0, the bodies pre 0 (wire 0) + 1 and
 * pre 3 (wire 0) - 1. */
#define UP_AND_DOWN                                                                                                                    \
    NUMBER_WIRE, 19, 11, 16, NUMBER(0), WIRE(0), CONSTANT(3), 11, 16, NUMBER(9), WIRE(0), CONSTANT(0), 8, 16, NUMBER(0), WIRE(0),      \
        CONSTANT(1), 9, 16, NUMBER(3), WIRE(0), CONSTANT(1)

/* Left where input 1 holds; the bodies are 20 fby 21 and 30 fby 31. Then in body 0 of a machine left where input 0 holds, with body 1 7; in
 * the first arm of a present by input 0, else 5; and that under a reset every input 2. */
#define INNER 19, INPUT(1), INPUT(1), 17, CONSTANT(20), CONSTANT(21), 17, CONSTANT(30), CONSTANT(31)
#define MACHINE_IN_MACHINE NUMBER_BY_2_INPUTS, 19, INPUT(0), INPUT(0), INNER, CONSTANT(7)
#define MACHINE_IN_ARM NUMBER_BY_2_INPUTS, 13, INPUT(0), INNER, CONSTANT(5)
#define MACHINE_IN_ARM_UNDER_RESET 3, 0, 0, 0, 1, 1, 1, 0, 14, INPUT(2), 13, INPUT(0), INNER, CONSTANT(5)
#define MACHINE_IN_IF NUMBER_BY_2_INPUTS, 12, INPUT(0), INNER, CONSTANT(5)
/* Condition 0 is a machine, which is true once the input held; state 1 is never left. The bodies are 1 and 2. */
#define MACHINE_IN_CONDITION NUMBER_BY_INPUT, 19, 19, INPUT(0), NEVER, NEVER, ALWAYS, NEVER, CONSTANT(1), CONSTANT(2)

/* Left where input 0 holds, body 0 is 0; body 1 is reset every input 1 of (100 fby 200), or present input 1 do (10 fby 20) else 6. */
#define RESET_IN_BODY NUMBER_BY_2_INPUTS, 19, INPUT(0), INPUT(0), CONSTANT(0), 14, INPUT(1), 17, CONSTANT(100), CONSTANT(200)
#define PRESENT_IN_BODY NUMBER_BY_2_INPUTS, 19, INPUT(0), INPUT(0), CONSTANT(0), 13, INPUT(1), 17, CONSTANT(10), CONSTANT(20), CONSTANT(6)

/* A machine left where the input holds, with bodies 1 and 2: under pre 5, and left of an fby whose right side is 50. */
#define MACHINE_UNDER_PRE NUMBER_BY_INPUT, 16, NUMBER(5), 19, INPUT(0), INPUT(0), CONSTANT(1), CONSTANT(2)
#define MACHINE_LEFT_OF_FBY NUMBER_BY_INPUT, 17, 19, INPUT(0), INPUT(0), CONSTANT(1), CONSTANT(2), CONSTANT(50)
/* Wire 0, kept, counts up to 2 and down to 0 by its last. */
#define KEPT_MACHINE                                                                                                                   \
    0, 1, 3, 1, 0, 19, 11, LAST(0), CONSTANT(2), 11, LAST(0), CONSTANT(0), 8, LAST(0), CONSTANT(1), 9, LAST(0), CONSTANT(1)

/* ---- Sheets of wires that read each other ---- */

/* Two machines in body 1 where the input holds, else in body 0. Wire 0 is wire 1 or 3, wire 1 is 4 or wire 0: each reads the other. */
#define CROSSED                                                                                                                        \
    1, 0, 2, 1, 1, 2, 0, 1, 19, INPUT(0), 4, INPUT(0), WIRE(1), CONSTANT(3), 19, INPUT(0), 4, INPUT(0), CONSTANT(4), WIRE(0)
/* The condition of state 1 is the wire itself; then that of state 0. */
#define CONDITION_1_IS_ITSELF 1, 0, 1, 0, 1, 0, 19, INPUT(0), WIRE(0), NEVER, ALWAYS
#define CONDITION_0_IS_ITSELF 1, 0, 1, 0, 1, 0, 19, WIRE(0), INPUT(0), NEVER, ALWAYS

/* Two wires: a number with an operand that is wire 1, a Boolean that is true or a number that is 7. */
#define READ_BY_CONDITION_0 0, 2, 1, 0, 1, 0, 19, WIRE(1), NEVER, CONSTANT(5), CONSTANT(6), ALWAYS
#define READ_BY_CONDITION_1 0, 2, 1, 0, 1, 0, 19, NEVER, WIRE(1), CONSTANT(5), CONSTANT(6), ALWAYS
#define READ_BY_BODY_0 WIRES_2, 19, NEVER, NEVER, WIRE(1), CONSTANT(6), CONSTANT(7)
#define READ_BY_BODY_1 WIRES_2, 19, NEVER, NEVER, CONSTANT(5), WIRE(1), CONSTANT(7)
/* Delayed: a machine that reads its own wire, under a pre and right of an fby. */
#define READS_UNDER_PRE NUMBER_WIRE, 16, NUMBER(5), 19, NEVER, NEVER, WIRE(0), WIRE(0)
#define READS_RIGHT_OF_FBY NUMBER_WIRE, 17, CONSTANT(5), 19, NEVER, NEVER, WIRE(0), WIRE(0)

/* Wire 0, a number, and wire 1, a number or a Boolean that is itself. */
#define BESIDE_LOOP(...) WIRES_2, __VA_ARGS__, WIRE(1)
#define BESIDE_BOOLEAN_LOOP(...) 0, 2, 1, 0, 1, 0, __VA_ARGS__, WIRE(1)
/* A condition that is unknown where wire 0 is. */
#define BY_WIRE_0 11, WIRE(0), CONSTANT(1)
/* Wire 0 is wire 2 in state 0 and wire 1 in state 1; wire 1 is wire 0, and wire 2 is itself. */
#define BODIES_LEAD_TO_WIRES WIRES_3, 19, NEVER, NEVER, WIRE(2), WIRE(1), WIRE(0), WIRE(2)

/* An instant of a sheet with one wire, in two rounds and along the only list. */
#define INSTANT(title, bytes, before, inputs, after, number)                                                                   \
    {.name = title, .call = call_rounds, .sheet = BYTES(bytes), .memory = before, .input = inputs, .output_length = 4,         \
     .answer = 2, .memory_after = after, .output_after = BYTES(NUMBER(number))},                                               \
    {.name = title " along a list", .call = call_scheduled, .sheet = BYTES(bytes), .memory = before, .input = inputs,          \
     .output_length = 4, .schedule = BYTES(0), .memory_after = after, .output_after = BYTES(NUMBER(number))}

#define NO_LIST(title, at, wires, ...) \
    {.name = title, .call = call_make, .sheet = BYTES(__VA_ARGS__), .schedule = LENT(wires), .refused = 21, .place = at}

static const struct row rows[] = {
    PASSES("a machine of numbers", 1, NUMBER_WIRE, RESTING_NUMBER),
    PASSES("a machine of Booleans", 1, BOOLEAN_WIRE, RESTING_BOOLEAN),
    PASSES("memory in every operand", 5, STAYS_WHEN_FRESH),
    PASSES("a machine of Booleans as a condition", 2, MACHINE_IN_CONDITION),

    REFUSED("6: kind 20 as a condition", 6, 6, NUMBER_WIRE, 19, 20),
    REFUSED("6: kind 20 as a body", 6, 15, NUMBER_WIRE, 19, NEVER, NEVER, CONSTANT(1), 20),
    REFUSED("2: no condition 0", 2, 6, NUMBER_WIRE, 19),
    REFUSED("2: no condition 1", 2, 8, NUMBER_WIRE, 19, NEVER),
    REFUSED("2: no body 0", 2, 10, NUMBER_WIRE, 19, NEVER, NEVER),
    REFUSED("2: no body 1", 2, 15, NUMBER_WIRE, 19, NEVER, NEVER, CONSTANT(1)),
    REFUSED("2: body 1 cut", 2, 19, NUMBER_WIRE, 19, NEVER, NEVER, CONSTANT(1), 1, 2, 0, 0),
    REFUSED("11: a fifth operand", 11, 20, NUMBER_WIRE, RESTING_NUMBER, CONSTANT(3)),
    REFUSED("7: condition 0", 7, 6, NUMBER_WIRE, 19, BOOLEAN(2)),
    REFUSED("7: condition 1", 7, 8, NUMBER_WIRE, 19, NEVER, WIRE(1)),
    REFUSED("7: body 0", 7, 10, NUMBER_WIRE, 19, NEVER, NEVER, WIRE(1)),
    REFUSED("7: body 1", 7, 15, NUMBER_WIRE, 19, NEVER, NEVER, CONSTANT(1), INPUT(0)),
    REFUSED("9: condition 0 a number", 9, 6, NUMBER_WIRE, 19, CONSTANT(0)),
    REFUSED("9: condition 1 a number", 9, 8, NUMBER_WIRE, 19, NEVER, CONSTANT(0)),
    REFUSED("9: body 0 a Boolean where a number is asked", 9, 10, NUMBER_WIRE, 19, NEVER, NEVER, NEVER, CONSTANT(2)),
    REFUSED("9: body 1 a Boolean where a number is asked", 9, 15, NUMBER_WIRE, 19, NEVER, NEVER, CONSTANT(1), NEVER),
    REFUSED("9: body 0 a number where a Boolean is asked", 9, 10, BOOLEAN_WIRE, 19, NEVER, NEVER, CONSTANT(1), NEVER),
    REFUSED("9: body 1 a number where a Boolean is asked", 9, 12, BOOLEAN_WIRE, 19, NEVER, NEVER, NEVER, CONSTANT(2)),
    REFUSED("9: body 1 of a machine as a condition", 9, 13, NUMBER_WIRE, 19, 19, NEVER, NEVER, NEVER, CONSTANT(1)),

    PASSES("a machine on level 15", 1, NUMBER_WIRE, TIMES_14(5), RESTING_NUMBER),
    REFUSED("8: the operand of a machine on level 16", 8, 21, NUMBER_WIRE, TIMES_15(5), RESTING_NUMBER),
    REFUSED("8: a machine on level 17", 8, 21, NUMBER_WIRE, TIMES_16(5), RESTING_NUMBER),
    REFUSED("2: no operand of a machine on level 16", 2, 21, NUMBER_WIRE, TIMES_15(5), 19),
    PASSES("machines in bodies to level 16", 15, BODIES_TO_LEVEL_16),
    REFUSED("8: machines in bodies to level 17", 8, 156, BODIES_TO_LEVEL_17),
    PASSES("machines in conditions to level 16", 15, CONDITIONS_TO_LEVEL_16),

    PASSES("64 machines", 64, MACHINES_64),
    REFUSED("10: 65 machines", 10, 636, MACHINES_65),
    REFUSED("10: a pre in the body of the 64th machine", 10, 642, MACHINES_64_AND_PRE),
    REFUSED("10: a machine under the 64th pre", 10, 322, PRES_64, RESTING_BOOLEAN),
    REFUSED("10: before the missing operand", 10, 322, PRES_64, 19),
    REFUSED("8: before 10", 8, 337, PRES_64, TIMES_15(4), 19),
    REFUSED("10: a machine in the first of 64 kept wires", 10, 68, 0, 64, TIMES_64(2), 1, 63, RESTING_BOOLEAN, TIMES_63(NEVER)),

    STARTS("64 machines: start", MACHINES_64, LENT(320), TIMES_64(CELL(1, 0))),
    STARTS("relay: start", RELAY, LENT(15), CELL(1, 0), CELL(1, 0), CELL(1, 0)),
    STARTS("counting: start", COUNTING, BYTES(CELL(1, 1), CELL(1, 44), CELL(1, 55)), CELL(1, 0), CELL(1, 10), CELL(0, 0)),
    STARTS("memory in every operand: start", STAYS_WHEN_FRESH, LENT(25), CELL(1, 0), CELL(1, 0), CELL(1, 1), CELL(1, 10), CELL(0, 0)),
    STARTS("up and down: start", UP_AND_DOWN, LENT(25), CELL(1, 0), CELL(1, 0), CELL(1, 9), CELL(1, 0), CELL(1, 3)),
    STARTS("machine in machine: start", MACHINE_IN_MACHINE, LENT(20), CELL(1, 0), CELL(1, 0), CELL(0, 0), CELL(0, 0)),
    STARTS("kept machine: start", KEPT_MACHINE, BYTES(CELL(1, 1), CELL(1, 1)), CELL(1, 0), CELL(1, 0)),
    {.name = "12: start without the machine's cell", .call = call_start, .sheet = BYTES(COUNTING), .memory = LENT(10), .refused = 12,
     .place = 0},
    REFUSED_BOTH_WAYS(BYTES(0), "12: rounds without the machine's cell", 12, 0, 4, COUNTING, CELL(1, 10), CELL(0, 0)),

    REFUSED_BOTH_WAYS(BYTES(0), "13: mark 0", 13, 0, 4, COUNTING, CELL(0, 0), CELL(1, 10), CELL(0, 0)),
    REFUSED_BOTH_WAYS(BYTES(0), "13: mark 0 in state 1", 13, 0, 4, COUNTING, CELL(0, 1), CELL(1, 10), CELL(0, 0)),
    REFUSED_BOTH_WAYS(BYTES(0), "13: mark 2", 13, 0, 4, COUNTING, CELL(2, 1), CELL(1, 10), CELL(0, 0)),
    REFUSED_BOTH_WAYS(BYTES(0), "13: state 2", 13, 0, 4, COUNTING, CELL(1, 2), CELL(1, 10), CELL(0, 0)),
    REFUSED_BOTH_WAYS(BYTES(0), "13: state 256", 13, 0, 4, COUNTING, STARTED_CELL(0, 1, 0, 0), CELL(1, 10), CELL(0, 0)),
    REFUSED_BOTH_WAYS(BYTES(0), "13: the last byte of state 1", 13, 0, 4, COUNTING, STARTED_CELL(1, 0, 0, 1), CELL(1, 10), CELL(0, 0)),
    REFUSED_BOTH_WAYS(BYTES(0), "13: state 2 of Booleans", 13, 0, 4, RELAY, CELL(1, 2), CELL(1, 0), CELL(1, 0)),
    REFUSED_BOTH_WAYS(BYTES(0), "13: mark 0 of the inner machine", 13, 1, 4, MACHINE_IN_MACHINE, CELL(1, 1), CELL(0, 0), CELL(0, 0),
                      CELL(0, 0)),
    REFUSED_BOTH_WAYS(BYTES(0), "13: state 2 behind a kept cell", 13, 1, 4, KEPT_MACHINE, CELL(1, 2), CELL(1, 2)),
    REFUSED_BOTH_WAYS(BYTES(DOWN_FROM_63), "13: the last of 64 machines", 13, 63, 4, MACHINES_64, TIMES_63(CELL(1, 1)), CELL(0, 0)),

    INSTANT("relay: closed once", RELAY, BYTES(CELL(1, 0), CELL(1, 0), CELL(1, 0)), BYTES(NUMBER(1)),
            BYTES(CELL(1, 0), CELL(1, 1), CELL(1, 0)), 0),
    INSTANT("relay: a bounce", RELAY, BYTES(CELL(1, 0), CELL(1, 1), CELL(1, 0)), BYTES(NUMBER(0)),
            BYTES(CELL(1, 0), CELL(1, 0), CELL(1, 0)), 0),
    INSTANT("relay: closed once again", RELAY, BYTES(CELL(1, 0), CELL(1, 0), CELL(1, 0)), BYTES(NUMBER(1)),
            BYTES(CELL(1, 0), CELL(1, 1), CELL(1, 0)), 0),
    INSTANT("relay: closed twice, so it closes", RELAY, BYTES(CELL(1, 0), CELL(1, 1), CELL(1, 0)), BYTES(NUMBER(1)),
            BYTES(CELL(1, 1), CELL(1, 1), CELL(1, 0)), 1),
    INSTANT("relay: opened once, and condition 0 rests", RELAY, BYTES(CELL(1, 1), CELL(1, 1), CELL(1, 0)), BYTES(NUMBER(0)),
            BYTES(CELL(1, 1), CELL(1, 1), CELL(1, 1)), 1),
    INSTANT("relay: opened twice, so it opens", RELAY, BYTES(CELL(1, 1), CELL(1, 1), CELL(1, 1)), BYTES(NUMBER(0)),
            BYTES(CELL(1, 0), CELL(1, 1), CELL(1, 1)), 0),
    INSTANT("relay: condition 0 holds by what it was asked last", RELAY, BYTES(CELL(1, 0), CELL(1, 1), CELL(1, 1)), BYTES(NUMBER(1)),
            BYTES(CELL(1, 1), CELL(1, 1), CELL(1, 1)), 1),
    INSTANT("relay: and condition 1 likewise, an instant later", RELAY, BYTES(CELL(1, 1), CELL(1, 1), CELL(1, 1)), BYTES(NUMBER(0)),
            BYTES(CELL(1, 0), CELL(1, 1), CELL(1, 1)), 0),

    INSTANT("counting: first instant", COUNTING, BYTES(CELL(1, 0), CELL(1, 10), CELL(0, 0)), BYTES(NUMBER(0)),
            BYTES(CELL(1, 0), CELL(1, 11), CELL(0, 0)), 11),
    INSTANT("counting: the body goes on while its state stays", COUNTING, BYTES(CELL(1, 0), CELL(1, 11), CELL(0, 0)), BYTES(NUMBER(0)),
            BYTES(CELL(1, 0), CELL(1, 12), CELL(0, 0)), 12),
    INSTANT("counting: state 1 entered", COUNTING, BYTES(CELL(1, 0), CELL(1, 12), CELL(0, 0)), BYTES(NUMBER(1)),
            BYTES(CELL(1, 1), CELL(1, 12), CELL(1, 101)), 100),
    INSTANT("counting: state 1 stays", COUNTING, BYTES(CELL(1, 1), CELL(1, 12), CELL(1, 101)), BYTES(NUMBER(0)),
            BYTES(CELL(1, 1), CELL(1, 12), CELL(1, 102)), 101),
    INSTANT("counting: state 0 entered from its start", COUNTING, BYTES(CELL(1, 1), CELL(1, 12), CELL(1, 102)), BYTES(NUMBER(1)),
            BYTES(CELL(1, 0), CELL(1, 11), CELL(1, 102)), 11),
    INSTANT("counting: state 1 entered from its start", COUNTING, BYTES(CELL(1, 0), CELL(1, 11), CELL(1, 102)), BYTES(NUMBER(1)),
            BYTES(CELL(1, 1), CELL(1, 11), CELL(1, 101)), 100),
    INSTANT("counting: state 0 entered at once", COUNTING, BYTES(CELL(1, 1), CELL(1, 11), CELL(1, 101)), BYTES(NUMBER(1)),
            BYTES(CELL(1, 0), CELL(1, 11), CELL(1, 101)), 11),
    {.name = "counting: previewed", .call = call_preview, .sheet = BYTES(COUNTING), .memory = BYTES(CELL(1, 1), CELL(1, 12), CELL(1, 102)),
     .input = BYTES(NUMBER(1)), .output_length = 4, .answer = 2, .output_after = BYTES(NUMBER(11))},

    INSTANT("alternating: state 0 left in the first instant", ALTERNATING, BYTES(CELL(1, 0)), NOTHING, BYTES(CELL(1, 1)), 2),
    INSTANT("alternating: one change an instant", ALTERNATING, BYTES(CELL(1, 1)), NOTHING, BYTES(CELL(1, 0)), 1),
    INSTANT("never left: state 0", NEVER_LEFT, BYTES(CELL(1, 0)), NOTHING, BYTES(CELL(1, 0)), 1),
    INSTANT("never left: state 1", NEVER_LEFT, BYTES(CELL(1, 1)), NOTHING, BYTES(CELL(1, 1)), 2),

    INSTANT("up and down: first instant", UP_AND_DOWN, BYTES(CELL(1, 0), CELL(1, 0), CELL(1, 9), CELL(1, 0), CELL(1, 3)), NOTHING,
            BYTES(CELL(1, 0), CELL(1, 1), CELL(1, 9), CELL(1, 1), CELL(1, 3)), 1),
    INSTANT("up and down: up to 3", UP_AND_DOWN, BYTES(CELL(1, 0), CELL(1, 2), CELL(1, 9), CELL(1, 2), CELL(1, 3)), NOTHING,
            BYTES(CELL(1, 0), CELL(1, 3), CELL(1, 9), CELL(1, 3), CELL(1, 3)), 3),
    INSTANT("up and down: down from 3", UP_AND_DOWN, BYTES(CELL(1, 0), CELL(1, 3), CELL(1, 9), CELL(1, 3), CELL(1, 3)), NOTHING,
            BYTES(CELL(1, 1), CELL(1, 2), CELL(1, 9), CELL(1, 3), CELL(1, 2)), 2),
    INSTANT("up and down: condition 1 asked for the first time", UP_AND_DOWN,
            BYTES(CELL(1, 1), CELL(1, 2), CELL(1, 9), CELL(1, 3), CELL(1, 2)), NOTHING,
            BYTES(CELL(1, 1), CELL(1, 2), CELL(1, 1), CELL(1, 3), CELL(1, 1)), 1),
    INSTANT("up and down: down to 0", UP_AND_DOWN, BYTES(CELL(1, 1), CELL(1, 2), CELL(1, 1), CELL(1, 3), CELL(1, 1)), NOTHING,
            BYTES(CELL(1, 1), CELL(1, 2), CELL(1, 0), CELL(1, 3), CELL(1, 0)), 0),
    INSTANT("up and down: up from 0", UP_AND_DOWN, BYTES(CELL(1, 1), CELL(1, 2), CELL(1, 0), CELL(1, 3), CELL(1, 0)), NOTHING,
            BYTES(CELL(1, 0), CELL(1, 2), CELL(1, 1), CELL(1, 1), CELL(1, 0)), 1),

    INSTANT("state 1 stays, the rest keep their memory", STAYS_WHEN_FRESH, BYTES(CELL(1, 1), CELL(1, 1), CELL(1, 0), CELL(1, 50), CELL(1, 77)),
            BYTES(NUMBER(1), NUMBER(0)), BYTES(CELL(1, 1), CELL(1, 1), CELL(1, 1), CELL(1, 50), CELL(1, 200)), 77),
    INSTANT("state 1 left, the rest keep their memory", STAYS_WHEN_FRESH, BYTES(CELL(1, 1), CELL(1, 1), CELL(1, 1), CELL(1, 50), CELL(1, 77)),
            BYTES(NUMBER(0), NUMBER(0)), BYTES(CELL(1, 0), CELL(1, 1), CELL(1, 0), CELL(1, 11), CELL(1, 77)), 10),
    INSTANT("state 0 stays, the rest keep their memory", STAYS_WHEN_FRESH, BYTES(CELL(1, 0), CELL(1, 0), CELL(1, 0), CELL(1, 50), CELL(1, 77)),
            BYTES(NUMBER(1), NUMBER(0)), BYTES(CELL(1, 0), CELL(1, 1), CELL(1, 0), CELL(1, 51), CELL(1, 77)), 50),
    INSTANT("state 0 left, the rest keep their memory", STAYS_WHEN_FRESH, BYTES(CELL(1, 0), CELL(1, 1), CELL(1, 0), CELL(1, 50), CELL(1, 77)),
            BYTES(NUMBER(1), NUMBER(0)), BYTES(CELL(1, 1), CELL(1, 1), CELL(1, 0), CELL(1, 50), CELL(1, 200)), 100),
    INSTANT("a condition that holds is not fresh by the entry", PRES_IN_CONDITION, BYTES(CELL(1, 0), CELL(1, 1), CELL(1, 1)),
            BYTES(NUMBER(0)), BYTES(CELL(1, 1), CELL(1, 1), CELL(1, 0)), 2),
    INSTANT("fresh in state 1: state 0, all else starts again", STAYS_WHEN_FRESH,
            BYTES(CELL(1, 1), CELL(1, 1), CELL(1, 0), CELL(1, 50), CELL(1, 77)), BYTES(NUMBER(1), NUMBER(1)),
            BYTES(CELL(1, 0), CELL(1, 1), CELL(1, 1), CELL(1, 11), CELL(0, 0)), 10),
    INSTANT("fresh in state 1 whose condition would hold", STAYS_WHEN_FRESH,
            BYTES(CELL(1, 1), CELL(1, 1), CELL(1, 1), CELL(1, 50), CELL(1, 77)), BYTES(NUMBER(0), NUMBER(1)),
            BYTES(CELL(1, 0), CELL(1, 0), CELL(1, 1), CELL(1, 11), CELL(0, 0)), 10),
    INSTANT("fresh in state 0", STAYS_WHEN_FRESH, BYTES(CELL(1, 0), CELL(1, 1), CELL(1, 0), CELL(1, 50), CELL(1, 77)),
            BYTES(NUMBER(1), NUMBER(1)), BYTES(CELL(1, 0), CELL(1, 1), CELL(1, 1), CELL(1, 11), CELL(0, 0)), 10),
    INSTANT("fresh in state 0, which is left: its body starts again too", LEAVES_WHEN_FRESH,
            BYTES(CELL(1, 0), CELL(1, 0), CELL(1, 1), CELL(1, 50), CELL(1, 77)), BYTES(NUMBER(0), NUMBER(1)),
            BYTES(CELL(1, 1), CELL(1, 0), CELL(1, 0), CELL(1, 10), CELL(1, 200)), 100),
    INSTANT("fresh in state 1: state 0 is left", LEAVES_WHEN_FRESH, BYTES(CELL(1, 1), CELL(1, 0), CELL(1, 1), CELL(1, 50), CELL(1, 77)),
            BYTES(NUMBER(1), NUMBER(1)), BYTES(CELL(1, 1), CELL(1, 1), CELL(1, 0), CELL(1, 10), CELL(1, 200)), 100),
    INSTANT("the same without the reset", LEAVES_WHEN_FRESH, BYTES(CELL(1, 1), CELL(1, 0), CELL(1, 1), CELL(1, 50), CELL(1, 77)),
            BYTES(NUMBER(1), NUMBER(0)), BYTES(CELL(1, 0), CELL(1, 0), CELL(1, 1), CELL(1, 11), CELL(1, 77)), 10),

    INSTANT("machine in machine: first instant", MACHINE_IN_MACHINE, BYTES(CELL(1, 0), CELL(1, 0), CELL(0, 0), CELL(0, 0)),
            BYTES(NUMBER(0), NUMBER(0)), BYTES(CELL(1, 0), CELL(1, 0), CELL(1, 21), CELL(0, 0)), 20),
    INSTANT("machine in machine: the inner one leaves", MACHINE_IN_MACHINE, BYTES(CELL(1, 0), CELL(1, 0), CELL(1, 21), CELL(0, 0)),
            BYTES(NUMBER(0), NUMBER(1)), BYTES(CELL(1, 0), CELL(1, 1), CELL(1, 21), CELL(1, 31)), 30),
    INSTANT("machine in machine: the outer one leaves, the inner one rests", MACHINE_IN_MACHINE,
            BYTES(CELL(1, 0), CELL(1, 1), CELL(1, 21), CELL(1, 31)), BYTES(NUMBER(1), NUMBER(1)),
            BYTES(CELL(1, 1), CELL(1, 1), CELL(1, 21), CELL(1, 31)), 7),
    INSTANT("machine in machine: the inner one still rests", MACHINE_IN_MACHINE, BYTES(CELL(1, 1), CELL(1, 1), CELL(1, 21), CELL(1, 31)),
            BYTES(NUMBER(0), NUMBER(1)), BYTES(CELL(1, 1), CELL(1, 1), CELL(1, 21), CELL(1, 31)), 7),
    INSTANT("machine in machine: entered, the inner one is in state 0", MACHINE_IN_MACHINE,
            BYTES(CELL(1, 1), CELL(1, 1), CELL(1, 21), CELL(1, 31)), BYTES(NUMBER(1), NUMBER(0)),
            BYTES(CELL(1, 0), CELL(1, 0), CELL(1, 21), CELL(0, 0)), 20),
    INSTANT("machine in machine: entered, the inner one leaves state 0", MACHINE_IN_MACHINE,
            BYTES(CELL(1, 1), CELL(1, 1), CELL(1, 21), CELL(1, 31)), BYTES(NUMBER(1), NUMBER(1)),
            BYTES(CELL(1, 0), CELL(1, 1), CELL(0, 0), CELL(1, 31)), 30),
    INSTANT("machine in condition: does not hold", MACHINE_IN_CONDITION, BYTES(CELL(1, 0), CELL(1, 0)), BYTES(NUMBER(0)),
            BYTES(CELL(1, 0), CELL(1, 0)), 1),
    INSTANT("machine in condition: both leave", MACHINE_IN_CONDITION, BYTES(CELL(1, 0), CELL(1, 0)), BYTES(NUMBER(1)),
            BYTES(CELL(1, 1), CELL(1, 1)), 2),
    INSTANT("machine in condition: not asked", MACHINE_IN_CONDITION, BYTES(CELL(1, 1), CELL(1, 0)), BYTES(NUMBER(1)),
            BYTES(CELL(1, 1), CELL(1, 0)), 2),
    INSTANT("machines in bodies to level 16", BODIES_TO_LEVEL_16, BYTES(TIMES_15(CELL(1, 1))), NOTHING, BYTES(TIMES_15(CELL(1, 1))), 9),
    INSTANT("machines in conditions to level 16", CONDITIONS_TO_LEVEL_16, BYTES(TIMES_15(CELL(1, 0))), NOTHING,
            BYTES(TIMES_7(CELL(1, 1), CELL(1, 0)), CELL(1, 1)), 0),

    INSTANT("machine in an arm not chosen", MACHINE_IN_ARM, BYTES(CELL(1, 1), CELL(1, 21), CELL(1, 31)), BYTES(NUMBER(0), NUMBER(1)),
            BYTES(CELL(1, 1), CELL(1, 21), CELL(1, 31)), 5),
    INSTANT("machine in the arm chosen", MACHINE_IN_ARM, BYTES(CELL(1, 1), CELL(1, 99), CELL(1, 31)), BYTES(NUMBER(1), NUMBER(1)),
            BYTES(CELL(1, 0), CELL(1, 21), CELL(1, 31)), 20),
    INSTANT("machine in an arm not chosen, under a reset that fires", MACHINE_IN_ARM_UNDER_RESET,
            BYTES(CELL(1, 1), CELL(1, 21), CELL(1, 31)), BYTES(NUMBER(0), NUMBER(1), NUMBER(1)), BYTES(CELL(1, 0), CELL(0, 0), CELL(0, 0)), 5),
    INSTANT("machine in an arm of an if", MACHINE_IN_IF, BYTES(CELL(1, 0), CELL(1, 21), CELL(1, 99)), BYTES(NUMBER(0), NUMBER(1)),
            BYTES(CELL(1, 1), CELL(1, 21), CELL(1, 31)), 5),
    INSTANT("a reset in a body that rests", RESET_IN_BODY, BYTES(CELL(1, 0), CELL(1, 77)), BYTES(NUMBER(0), NUMBER(1)),
            BYTES(CELL(1, 0), CELL(1, 77)), 0),
    INSTANT("a reset in the body that runs leaves the state", RESET_IN_BODY, BYTES(CELL(1, 1), CELL(1, 77)), BYTES(NUMBER(0), NUMBER(1)),
            BYTES(CELL(1, 1), CELL(1, 200)), 100),
    INSTANT("a body is fresh through a reset that does not fire", RESET_IN_BODY, BYTES(CELL(1, 0), CELL(1, 77)), BYTES(NUMBER(1), NUMBER(0)),
            BYTES(CELL(1, 1), CELL(1, 200)), 100),
    INSTANT("an arm not chosen in the body entered", PRESENT_IN_BODY, BYTES(CELL(1, 0), CELL(1, 77)), BYTES(NUMBER(1), NUMBER(0)),
            BYTES(CELL(1, 1), CELL(0, 0)), 6),
    INSTANT("an arm not chosen in the body that stays", PRESENT_IN_BODY, BYTES(CELL(1, 1), CELL(1, 77)), BYTES(NUMBER(0), NUMBER(0)),
            BYTES(CELL(1, 1), CELL(1, 77)), 6),
    INSTANT("under a pre", MACHINE_UNDER_PRE, BYTES(CELL(1, 8), CELL(1, 0)), BYTES(NUMBER(1)), BYTES(CELL(1, 2), CELL(1, 1)), 8),
    INSTANT("left of an fby not started", MACHINE_LEFT_OF_FBY, BYTES(CELL(0, 0), CELL(1, 0)), BYTES(NUMBER(1)),
            BYTES(CELL(1, 50), CELL(1, 1)), 2),
    INSTANT("left of a started fby it advances", MACHINE_LEFT_OF_FBY, BYTES(CELL(1, 50), CELL(1, 1)), BYTES(NUMBER(1)),
            BYTES(CELL(1, 50), CELL(1, 0)), 50),
    INSTANT("kept machine: up", KEPT_MACHINE, BYTES(CELL(1, 1), CELL(1, 0)), NOTHING, BYTES(CELL(1, 2), CELL(1, 0)), 2),
    INSTANT("kept machine: a body entered starts from the last", KEPT_MACHINE, BYTES(CELL(1, 2), CELL(1, 0)), NOTHING,
            BYTES(CELL(1, 1), CELL(1, 1)), 1),
    INSTANT("kept machine: down", KEPT_MACHINE, BYTES(CELL(1, 1), CELL(1, 1)), NOTHING, BYTES(CELL(1, 0), CELL(1, 1)), 0),

    {.name = "crossed: state 0", .call = call_rounds, .sheet = BYTES(CROSSED), .memory = BYTES(CELL(1, 0), CELL(1, 0)),
     .input = BYTES(NUMBER(0)), .output_length = 8, .answer = 3, .memory_after = BYTES(CELL(1, 0), CELL(1, 0)),
     .output_after = BYTES(NUMBER(4), NUMBER(4))},
    {.name = "crossed: state 1 entered", .call = call_rounds, .sheet = BYTES(CROSSED), .memory = BYTES(CELL(1, 0), CELL(1, 0)),
     .input = BYTES(NUMBER(1)), .output_length = 8, .answer = 3, .memory_after = BYTES(CELL(1, 1), CELL(1, 1)),
     .output_after = BYTES(NUMBER(3), NUMBER(3))},
    {.name = "crossed: one of them left", .call = call_rounds, .sheet = BYTES(CROSSED), .memory = BYTES(CELL(1, 0), CELL(1, 1)),
     .input = BYTES(NUMBER(1)), .output_length = 8, .answer = 3, .memory_after = BYTES(CELL(1, 1), CELL(1, 1)),
     .output_after = BYTES(NUMBER(3), NUMBER(3))},
    {.name = "19: crossed along 0 1", .call = call_scheduled, .sheet = BYTES(CROSSED), .memory = BYTES(CELL(1, 0), CELL(1, 0)),
     .input = BYTES(NUMBER(0)), .output_length = 8, .schedule = BYTES(0, 1), .refused = 19, .place = 0},
    {.name = "19: crossed along 1 0", .call = call_scheduled, .sheet = BYTES(CROSSED), .memory = BYTES(CELL(1, 0), CELL(1, 0)),
     .input = BYTES(NUMBER(0)), .output_length = 8, .schedule = BYTES(1, 0), .refused = 19, .place = 0},
    NO_LIST("21: crossed", 0, 2, CROSSED),

    {.name = "an unknown condition that is not asked", .call = call_rounds, .sheet = BYTES(CONDITION_1_IS_ITSELF), .memory = BYTES(CELL(1, 0)),
     .input = BYTES(NUMBER(0)), .output_length = 4, .answer = 2, .memory_after = BYTES(CELL(1, 0)), .output_after = BYTES(NUMBER(0))},
    {.name = "the condition of the state entered is not asked", .call = call_rounds, .sheet = BYTES(CONDITION_1_IS_ITSELF),
     .memory = BYTES(CELL(1, 0)), .input = BYTES(NUMBER(1)), .output_length = 4, .answer = 2, .memory_after = BYTES(CELL(1, 1)),
     .output_after = BYTES(NUMBER(1))},
    {.name = "20: the condition asked", .call = call_rounds, .sheet = BYTES(CONDITION_1_IS_ITSELF), .memory = BYTES(CELL(1, 1)),
     .input = BYTES(NUMBER(0)), .output_length = 4, .refused = 20, .place = 0},
    {.name = "state 0 entered, whose condition is unknown", .call = call_rounds, .sheet = BYTES(CONDITION_0_IS_ITSELF),
     .memory = BYTES(CELL(1, 1)), .input = BYTES(NUMBER(1)), .output_length = 4, .answer = 2, .memory_after = BYTES(CELL(1, 0)),
     .output_after = BYTES(NUMBER(0))},
    {.name = "20: the condition asked of state 0", .call = call_rounds, .sheet = BYTES(CONDITION_0_IS_ITSELF), .memory = BYTES(CELL(1, 0)),
     .input = BYTES(NUMBER(1)), .output_length = 4, .refused = 20, .place = 0},
    NO_LIST("21: a condition of itself", 0, 1, CONDITION_1_IS_ITSELF),

    MADE("read by condition 0", 2, READ_BY_CONDITION_0, 1, 0),
    MADE("read by condition 1", 2, READ_BY_CONDITION_1, 1, 0),
    MADE("read by body 0", 2, READ_BY_BODY_0, 1, 0),
    MADE("read by body 1", 2, READ_BY_BODY_1, 1, 0),
    MADE("read under a pre", 1, READS_UNDER_PRE, 0),
    MADE("read right of an fby", 1, READS_RIGHT_OF_FBY, 0),
    MADE("64 machines", 1, MACHINES_64, 0, FROM_1_TO_63),
    NO_LIST("21: body 0 of itself", 0, 1, NUMBER_WIRE, 19, NEVER, NEVER, WIRE(0), CONSTANT(1)),
    NO_LIST("21: body 1 of itself", 0, 1, NUMBER_WIRE, 19, NEVER, NEVER, CONSTANT(1), WIRE(0)),
    NO_LIST("21: condition 0 by itself", 0, 1, NUMBER_WIRE, 19, BY_WIRE_0, NEVER, CONSTANT(1), CONSTANT(2)),
    NO_LIST("21: condition 1 by itself", 0, 1, NUMBER_WIRE, 19, NEVER, BY_WIRE_0, CONSTANT(1), CONSTANT(2)),
    REFUSED_ALONG(BYTES(0, 1), "19: read by condition 0", 19, 0, 4, READ_BY_CONDITION_0, CELL(1, 1)),
    REFUSED_ALONG(BYTES(0, 1), "19: read by condition 1", 19, 0, 4, READ_BY_CONDITION_1, CELL(1, 0)),
    REFUSED_ALONG(BYTES(0, 1), "19: read by body 0", 19, 0, 4, READ_BY_BODY_0, CELL(1, 1)),
    REFUSED_ALONG(BYTES(0, 1), "19: read by body 1", 19, 0, 4, READ_BY_BODY_1, CELL(1, 0)),
    BOTH_WAYS(BYTES(1, 0), "condition 0 known a round later", READ_BY_CONDITION_0, BYTES(CELL(1, 0)), NOTHING, 3, BYTES(CELL(1, 1)), 4,
              NUMBER(6)),
    BOTH_WAYS(BYTES(1, 0), "condition 0 not asked: fewer rounds", READ_BY_CONDITION_0, BYTES(CELL(1, 1)), NOTHING, 2, BYTES(CELL(1, 1)), 4,
              NUMBER(6)),
    BOTH_WAYS(BYTES(1, 0), "condition 1 not asked: fewer rounds", READ_BY_CONDITION_1, BYTES(CELL(1, 0)), NOTHING, 2, BYTES(CELL(1, 0)), 4,
              NUMBER(5)),
    BOTH_WAYS(BYTES(1, 0), "condition 1 known a round later", READ_BY_CONDITION_1, BYTES(CELL(1, 1)), NOTHING, 3, BYTES(CELL(1, 0)), 4,
              NUMBER(5)),
    BOTH_WAYS(BYTES(1, 0), "body 0 known a round later", READ_BY_BODY_0, BYTES(CELL(1, 0)), NOTHING, 3, BYTES(CELL(1, 0)), 4, NUMBER(7)),
    BOTH_WAYS(BYTES(1, 0), "body 0 rests: fewer rounds", READ_BY_BODY_0, BYTES(CELL(1, 1)), NOTHING, 2, BYTES(CELL(1, 1)), 4, NUMBER(6)),
    BOTH_WAYS(BYTES(1, 0), "body 1 rests: fewer rounds", READ_BY_BODY_1, BYTES(CELL(1, 0)), NOTHING, 2, BYTES(CELL(1, 0)), 4, NUMBER(5)),
    BOTH_WAYS(BYTES(1, 0), "body 1 known a round later", READ_BY_BODY_1, BYTES(CELL(1, 1)), NOTHING, 3, BYTES(CELL(1, 1)), 4, NUMBER(7)),

    REFUSED_IN_ROUNDS("20: an unknown condition 0 counts alone", 20, 1, 4,
                      BESIDE_BOOLEAN_LOOP(19, WIRE(1), BY_WIRE_0, WIRE(0), WIRE(0)), CELL(1, 0)),
    REFUSED_IN_ROUNDS("20: an unknown condition 1 counts alone", 20, 1, 4,
                      BESIDE_BOOLEAN_LOOP(19, BY_WIRE_0, WIRE(1), WIRE(0), WIRE(0)), CELL(1, 1)),
    REFUSED_IN_ROUNDS("20: a loop through condition 0", 20, 0, 4, BESIDE_LOOP(19, BY_WIRE_0, NEVER, WIRE(1), WIRE(1)), CELL(1, 0)),
    REFUSED_IN_ROUNDS("20: condition 0 not asked plays no part", 20, 1, 4, BESIDE_LOOP(19, BY_WIRE_0, NEVER, WIRE(1), WIRE(1)), CELL(1, 1)),
    REFUSED_IN_ROUNDS("20: a loop through condition 1", 20, 0, 4, BESIDE_LOOP(19, NEVER, BY_WIRE_0, WIRE(1), WIRE(1)), CELL(1, 1)),
    REFUSED_IN_ROUNDS("20: condition 1 not asked plays no part", 20, 1, 4, BESIDE_LOOP(19, NEVER, BY_WIRE_0, WIRE(1), WIRE(1)), CELL(1, 0)),
    REFUSED_IN_ROUNDS("20: that of the state entered plays no part", 20, 1, 4, BESIDE_LOOP(19, ALWAYS, BY_WIRE_0, CONSTANT(1), WIRE(1)),
                      CELL(1, 0)),
    REFUSED_IN_ROUNDS("20: body 0 runs", 20, 0, 4, BESIDE_LOOP(19, NEVER, NEVER, WIRE(0), WIRE(1)), CELL(1, 0)),
    REFUSED_IN_ROUNDS("20: body 0 rests", 20, 1, 4, BESIDE_LOOP(19, NEVER, NEVER, WIRE(0), WIRE(1)), CELL(1, 1)),
    REFUSED_IN_ROUNDS("20: body 1 runs", 20, 0, 4, BESIDE_LOOP(19, NEVER, NEVER, WIRE(1), WIRE(0)), CELL(1, 1)),
    REFUSED_IN_ROUNDS("20: body 1 rests", 20, 1, 4, BESIDE_LOOP(19, NEVER, NEVER, WIRE(1), WIRE(0)), CELL(1, 0)),
    REFUSED_IN_ROUNDS("20: body 1 is entered", 20, 0, 4, BESIDE_LOOP(19, ALWAYS, NEVER, WIRE(1), WIRE(0)), CELL(1, 0)),
    REFUSED_IN_ROUNDS("20: body 0 is left", 20, 1, 4, BESIDE_LOOP(19, ALWAYS, NEVER, WIRE(0), WIRE(1)), CELL(1, 0)),
    REFUSED_IN_ROUNDS("20: body 0 is entered", 20, 0, 4, BESIDE_LOOP(19, NEVER, ALWAYS, WIRE(0), WIRE(1)), CELL(1, 1)),
    REFUSED_IN_ROUNDS("20: body 1 is left", 20, 1, 4, BESIDE_LOOP(19, NEVER, ALWAYS, WIRE(1), WIRE(0)), CELL(1, 1)),
    REFUSED_IN_ROUNDS("20: a body that runs leads to a loop", 20, 0, 4, BODIES_LEAD_TO_WIRES, CELL(1, 1)),
    REFUSED_IN_ROUNDS("20: a body that rests leads to none", 20, 2, 4, BODIES_LEAD_TO_WIRES, CELL(1, 0)),
    REFUSED_IN_ROUNDS("20: a body entered is fresh", 20, 0, 4,
                      BESIDE_LOOP(8, 19, ALWAYS, NEVER, CONSTANT(1), 17, WIRE(0), CONSTANT(2), WIRE(1)), CELL(1, 0), CELL(1, 9)),
    REFUSED_IN_ROUNDS("20: a body that stays is not fresh", 20, 1, 4,
                      BESIDE_LOOP(8, 19, ALWAYS, NEVER, CONSTANT(1), 17, WIRE(0), CONSTANT(2), WIRE(1)), CELL(1, 1), CELL(1, 9)),
    REFUSED_IN_ROUNDS("20: a condition is not fresh by the entry", 20, 1, 4,
                      BESIDE_LOOP(19, 17, BY_WIRE_0, NEVER, NEVER, CONSTANT(1), WIRE(1)), CELL(1, 0), CELL(1, 1)),
    REFUSED_IN_ROUNDS("20: a condition is fresh with the whole", 20, 0, 4,
                      BESIDE_LOOP(14, ALWAYS, 19, 17, BY_WIRE_0, NEVER, NEVER, WIRE(1), WIRE(1)), CELL(1, 0), CELL(1, 0)),
    REFUSED_IN_ROUNDS("20: fresh in state 1, condition 0 is asked", 20, 0, 4,
                      BESIDE_LOOP(14, ALWAYS, 19, BY_WIRE_0, NEVER, WIRE(1), WIRE(1)), CELL(1, 1)),
    REFUSED_IN_ROUNDS("20: fresh in state 1, body 0 runs", 20, 0, 4, BESIDE_LOOP(14, ALWAYS, 19, NEVER, NEVER, WIRE(0), WIRE(1)), CELL(1, 1)),
    REFUSED_IN_ROUNDS("20: a machine under a pre waits for nothing", 20, 1, 4,
                      BESIDE_LOOP(8, 16, NUMBER(5), 19, NEVER, NEVER, WIRE(0), WIRE(0), WIRE(1)), CELL(1, 5), CELL(1, 0)),
};

const struct table cases_of_machines = TABLE(rows);
