/* Which wire refusal 20 names where wires wait for each other, document 02, K5. Where a sheet has no other word, wire 0 is sound and waits for
 * the loop of wire 1. Rests on the rows.
 */
#include "cases/chains.h"
#include "cases/rows.h"

/* Two or three number wires, of which wire 0 is the output; in the second wire 1 is a Boolean. */
#define TWO_NUMBERS 0, 2, 1, 1, 1, 0
#define NUMBER_AND_BOOLEAN 0, 2, 1, 0, 1, 0
#define THREE_NUMBERS 0, 3, 1, 1, 1, 1, 0
/* Two Boolean inputs and two number wires, of which wire 0 is the output. */
#define TWO_INPUTS 2, 0, 0, 2, 1, 1, 1, 0

#define ONE_MORE_THAN(wire) 8, WIRE(wire), CONSTANT(1)

/* Wire 0 and wire 1 of two numbers, or of a number and a Boolean that is itself. */
#define SECOND_IS(...) BYTES(TWO_NUMBERS, ONE_MORE_THAN(1), __VA_ARGS__)
#define FIRST_IS(...) BYTES(TWO_NUMBERS, __VA_ARGS__, WIRE(1))
#define FIRST_BY_BOOLEAN(...) BYTES(NUMBER_AND_BOOLEAN, __VA_ARGS__, WIRE(1))

/* Wire 0 is wire 1 + the fby whose left side is 5 where input 0 is true, else wire 0, under a reset by input 1; wire 1 is 3 where input 0
 * is true, else itself. Fresh or not started, wire 0 waits for itself where input 0 is false. */
#define LEFT_SIDE_WAITS \
    BYTES(TWO_INPUTS, 8, 14, INPUT(1), 17, 13, INPUT(0), CONSTANT(5), WIRE(0), CONSTANT(7), WIRE(1), 13, INPUT(0), CONSTANT(3), WIRE(1))

/* Wire 0 is a pre of itself, an fby with itself on the right, and wire 1, added. */
#define DELAYED_WAITS_FOR_NOTHING \
    BYTES(TWO_NUMBERS, 8, 16, NUMBER(4), WIRE(0), 8, 17, CONSTANT(2), WIRE(0), WIRE(1), WIRE(1))

#define REFUSED(row_name, row_sheet, row_place) \
    {.name = row_name, .call = call_rounds, .sheet = row_sheet, .output_length = 4, .refused = 20, .place = row_place}
#define REFUSED_WITH(row_name, row_sheet, row_place, ...) \
    {.name = row_name, .call = call_rounds, .sheet = row_sheet, .output_length = 4, .refused = 20, .place = row_place, __VA_ARGS__}
#define WITH_MEMORY(...) .memory = BYTES(__VA_ARGS__)
#define WITH_INPUTS(first, second) .input = BYTES(NUMBER(first), NUMBER(second))

static const struct row rows[] = {
    REFUSED("wire 0 = wire 1 + 1, wire 1 = wire 1", SECOND_IS(WIRE(1)), 1),
    REFUSED("wire 0 = wire 1 + wire 0", FIRST_IS(8, WIRE(1), WIRE(0)), 0),
    REFUSED("two loops, the higher one met first", BYTES(THREE_NUMBERS, 8, WIRE(2), WIRE(1), WIRE(1), WIRE(2)), 1),
    REFUSED("a loop through another wire", BYTES(THREE_NUMBERS, WIRE(1), WIRE(2), WIRE(1)), 1),
    REFUSED("a loop of three", BYTES(THREE_NUMBERS, WIRE(2), WIRE(0), WIRE(1)), 0),
    REFUSED("two wires wait for a loop of 62", BYTES(HEADER_OF_64, READING_1_TO_62, WIRE(63), WIRE(2)), 2),

    REFUSED("not", BYTES(0, 2, 0, 0, 1, 0, 4, WIRE(0), WIRE(1)), 0),
    REFUSED("negate", FIRST_IS(5, WIRE(0)), 0),
    REFUSED("and false", BYTES(0, 2, 0, 0, 1, 0, 6, NEVER, WIRE(1), 6, NEVER, WIRE(1)), 1),
    REFUSED("no short cut at and", BYTES(0, 2, 0, 0, 1, 0, 6, NEVER, WIRE(0), WIRE(1)), 0),
    REFUSED("no short cut at or", BYTES(0, 2, 0, 0, 1, 0, 7, ALWAYS, WIRE(0), WIRE(1)), 0),
    REFUSED("right operand of subtract", FIRST_IS(9, WIRE(1), WIRE(0)), 0),
    REFUSED("right operand of less than", BYTES(0, 2, 0, 1, 1, 0, 10, WIRE(1), 12, WIRE(0), CONSTANT(1), CONSTANT(2), WIRE(1)), 0),
    REFUSED("left operand of equal", BYTES(0, 2, 0, 1, 1, 0, 11, 12, WIRE(0), CONSTANT(1), CONSTANT(2), WIRE(1), WIRE(1)), 0),

    REFUSED("an if by an unknown condition counts its first arm", FIRST_BY_BOOLEAN(12, WIRE(1), WIRE(0), CONSTANT(1)), 0),
    REFUSED("an if by an unknown condition counts its second arm", FIRST_BY_BOOLEAN(12, WIRE(1), CONSTANT(1), WIRE(0)), 0),
    REFUSED("an if by a known condition counts the other arm", FIRST_IS(12, NEVER, WIRE(0), WIRE(1)), 0),
    REFUSED("a present by an unknown condition counts it alone", FIRST_BY_BOOLEAN(13, WIRE(1), WIRE(0), WIRE(0)), 1),
    REFUSED("a loop through a present's condition", SECOND_IS(13, 10, WIRE(1), CONSTANT(1), CONSTANT(2), CONSTANT(3)), 1),
    REFUSED("a present that is false does not count its first arm", FIRST_IS(13, NEVER, WIRE(0), WIRE(1)), 1),
    REFUSED("a present that is true does not count its second arm", FIRST_IS(13, ALWAYS, WIRE(1), WIRE(0)), 1),
    REFUSED("a present that is false counts its second arm", FIRST_IS(13, NEVER, WIRE(1), WIRE(0)), 0),
    REFUSED("a present that is true counts its first arm", FIRST_IS(13, ALWAYS, WIRE(0), WIRE(1)), 0),
    REFUSED("an arm not chosen names a loop", BYTES(THREE_NUMBERS, 13, NEVER, WIRE(1), WIRE(2), WIRE(1), 8, WIRE(2), CONSTANT(1)), 1),
    REFUSED("a loop only by an arm not chosen", BYTES(THREE_NUMBERS, 13, NEVER, WIRE(1), WIRE(2), WIRE(0), WIRE(2)), 2),

    REFUSED("a reset by an unknown condition counts it alone", FIRST_BY_BOOLEAN(14, WIRE(1), WIRE(0)), 1),
    REFUSED("a loop through a reset's condition", SECOND_IS(14, 10, WIRE(1), CONSTANT(1), CONSTANT(2)), 1),
    REFUSED("a reset by false counts its operand", FIRST_IS(14, NEVER, WIRE(0)), 0),
    REFUSED("a reset by true counts its operand", FIRST_IS(14, ALWAYS, WIRE(0)), 0),

    REFUSED_WITH("an fby not started counts its left side", LEFT_SIDE_WAITS, 0, WITH_MEMORY(CELL(0, 0)), WITH_INPUTS(0, 0)),
    REFUSED_WITH("a started fby does not", LEFT_SIDE_WAITS, 1, WITH_MEMORY(CELL(1, 9)), WITH_INPUTS(0, 0)),
    REFUSED_WITH("a started fby under a reset that fires does", LEFT_SIDE_WAITS, 0, WITH_MEMORY(CELL(1, 9)), WITH_INPUTS(0, 1)),
    {.name = "the fby's left side known", .call = call_rounds, .sheet = LEFT_SIDE_WAITS, .memory = BYTES(CELL(0, 0)),
     WITH_INPUTS(1, 0), .output_length = 4, .answer = 3, .memory_after = BYTES(CELL(1, 7)), .output_after = BYTES(NUMBER(8))},
    REFUSED_WITH("a reset's condition is fresh only by an outer reset",
                 BYTES(NUMBER_AND_BOOLEAN, 14, 17, 12, WIRE(1), ALWAYS, ALWAYS, NEVER, WIRE(0), WIRE(1)), 0, WITH_MEMORY(CELL(1, 1))),
    REFUSED_WITH("fresh is inherited by a reset that does not fire",
                 BYTES(TWO_NUMBERS, 14, ALWAYS, 14, NEVER, 17, WIRE(0), CONSTANT(1), WIRE(1)), 0, WITH_MEMORY(CELL(1, 3))),
    REFUSED_WITH("nothing under a pre or right of an fby counts", DELAYED_WAITS_FOR_NOTHING, 1, WITH_MEMORY(CELL(1, 6), CELL(1, 6))),
    REFUSED_WITH("nor where the fby is not started", DELAYED_WAITS_FOR_NOTHING, 1, WITH_MEMORY(CELL(1, 6), CELL(0, 0)))};

const struct table cases_of_waiting = TABLE(rows);
