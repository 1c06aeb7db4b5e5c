/* The greatest depth that the maker reports, and how many rounds an instant of the same sheet makes: at most one more, and fewer where an
 * arm that is not chosen or a started fby leaves a read aside. Rests on sheets of its own.
 */
#include "cases/chains.h"
#include "cases/rows.h"

/* The rounds of the first instant of a sheet without cells, whose wire 0 is then the number. */
#define ROUNDS(title, rounds, number, ...)                                                                  \
    {.name = title, .call = call_rounds, .sheet = BYTES(__VA_ARGS__), .output_length = 4, .answer = rounds, \
     .output_after = BYTES(NUMBER(number))}

/* Wire 1 is wire 0; and wire 2, placed last, is a constant. */
#define LAST_PLACED_IS_SHALLOW WIRES_3, CONSTANT(7), WIRE(0), CONSTANT(8)
/* Wire 1 is wire 2, and wires 2 and 3 are wire 0. */
#define DEEPEST_IN_THE_MIDDLE WIRES_4, CONSTANT(7), WIRE(2), WIRE(0), WIRE(0)
/* Wire 0 is the sum of wire 1 and wire 2, of which wire 1 is wire 2; the operands in both orders; and one wire twice. */
#define DEEPER_FIRST WIRES_3, 8, WIRE(1), WIRE(2), WIRE(2), CONSTANT(7)
#define DEEPER_SECOND WIRES_3, 8, WIRE(2), WIRE(1), WIRE(2), CONSTANT(7)
#define ONE_WIRE_TWICE WIRES_2, 8, WIRE(1), WIRE(1), CONSTANT(7)
/* Wire 0 is the sum of the ends of two chains: wires 1 and 2, and wires 3, 4 and 5. */
#define TWO_CHAINS 0, 6, TIMES_4(1), TWICE(1), 1, 0, 8, WIRE(1), WIRE(3), WIRE(2), CONSTANT(1), WIRE(4), WIRE(5), CONSTANT(2)
/* Wire 0 is wire 63, and all the others are constants. */
#define ONE_READS_OF_64 HEADER_OF_64, WIRE(63), TIMES_63(CONSTANT(7))
/* Wire 0 is pre 0 (wire 1), and wire 1 is wire 2; and wire 0 is 9 fby wire 1. */
#define CHAIN_UNDER_PRE WIRES_3, 16, NUMBER(0), WIRE(1), WIRE(2), CONSTANT(7)
#define CHAIN_RIGHT_OF_FBY WIRES_3, 17, CONSTANT(9), WIRE(1), WIRE(2), CONSTANT(7)
/* Wire 0 is wire 1 fby wire 0. */
#define LEFT_OF_FBY WIRES_2, 17, WIRE(1), WIRE(0), CONSTANT(7)
/* Wire 0 is wire 1 where the constant condition is true, and else 9. */
#define ARM(kind, condition) WIRES_2, kind, 0, condition, WIRE(1), CONSTANT(9), CONSTANT(7)
/* Wire 0 is 9 where the constant condition is true, and else wire 1, at the end of a chain. */
#define CHAIN_IN_ARM(condition) WIRES_4, 13, 0, condition, CONSTANT(9), WIRE(1), WIRE(2), WIRE(3), CONSTANT(7)

static const struct row rows[] = {
    MADE("last placed is shallow", 2, LAST_PLACED_IS_SHALLOW, 0, 1, 2),
    ROUNDS("last placed is shallow", 3, 7, LAST_PLACED_IS_SHALLOW),
    MADE("deepest in the middle", 3, DEEPEST_IN_THE_MIDDLE, 0, 2, 1, 3),
    ROUNDS("deepest in the middle", 4, 7, DEEPEST_IN_THE_MIDDLE),
    MADE("deeper operand first", 3, DEEPER_FIRST, 2, 1, 0),
    ROUNDS("deeper operand first", 4, 14, DEEPER_FIRST),
    MADE("deeper operand second", 3, DEEPER_SECOND, 2, 1, 0),
    ROUNDS("deeper operand second", 4, 14, DEEPER_SECOND),
    MADE("one wire twice", 2, ONE_WIRE_TWICE, 1, 0),
    ROUNDS("one wire twice", 3, 14, ONE_WIRE_TWICE),
    MADE("two chains", 4, TWO_CHAINS, 2, 1, 5, 4, 3, 0),
    ROUNDS("two chains", 5, 3, TWO_CHAINS),
    MADE("one of 64 reads", 2, ONE_READS_OF_64, FROM_1_TO_63, 0),
    ROUNDS("one of 64 reads", 3, 7, ONE_READS_OF_64),

    MADE("chain under a pre", 2, CHAIN_UNDER_PRE, 0, 2, 1),
    {.name = "chain under a pre", .call = call_rounds, .sheet = BYTES(CHAIN_UNDER_PRE), .memory = BYTES(CELL(1, 0)),
     .output_length = 4, .answer = 3, .memory_after = BYTES(CELL(1, 7)), .output_after = BYTES(NUMBER(0))},
    MADE("chain right of an fby", 2, CHAIN_RIGHT_OF_FBY, 0, 2, 1),
    {.name = "chain right of an fby", .call = call_rounds, .sheet = BYTES(CHAIN_RIGHT_OF_FBY), .memory = BYTES(CELL(0, 0)),
     .output_length = 4, .answer = 3, .memory_after = BYTES(CELL(1, 7)), .output_after = BYTES(NUMBER(9))},

    MADE("fby not started", 2, LEFT_OF_FBY, 1, 0),
    {.name = "fby not started", .call = call_rounds, .sheet = BYTES(LEFT_OF_FBY), .memory = BYTES(CELL(0, 0)), .output_length = 4,
     .answer = 3, .memory_after = BYTES(CELL(1, 7)), .output_after = BYTES(NUMBER(7))},
    {.name = "fby started: fewer", .call = call_rounds, .sheet = BYTES(LEFT_OF_FBY), .memory = BYTES(CELL(1, 5)), .output_length = 4,
     .answer = 2, .memory_after = BYTES(CELL(1, 5)), .output_after = BYTES(NUMBER(5))},

    MADE("arm of present", 2, ARM(13, 1), 1, 0),
    ROUNDS("arm of present that is chosen", 3, 7, ARM(13, 1)),
    ROUNDS("arm of present that is not chosen: fewer", 2, 9, ARM(13, 0)),
    MADE("arm of if", 2, ARM(12, 0), 1, 0),
    ROUNDS("arm of if that is not chosen", 3, 9, ARM(12, 0)),
    MADE("chain in an arm", 4, CHAIN_IN_ARM(0), 3, 2, 1, 0),
    ROUNDS("chain in an arm that is chosen", 5, 7, CHAIN_IN_ARM(0)),
    ROUNDS("chain in an arm that is not chosen: fewer", 4, 9, CHAIN_IN_ARM(1))
};

const struct table cases_of_depths = TABLE(rows);
