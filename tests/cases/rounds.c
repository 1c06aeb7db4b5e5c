/* Rounds: how many there are where wires become known late, and which wire 20 names where some stay unknown. Rests on the chains and on
 * sheets of its own.
 */
#include "cases/chains.h"
#include "cases/rows.h"

#define ONLY_HIGHEST_UNKNOWN HEADER_OF_64, TIMES_63(CONSTANT(7)), 2, 63
#define ONLY_LOWEST_UNKNOWN HEADER_OF_64, 2, 0, TIMES_63(CONSTANT(7))
/* Wire 63 reads wire 0, which is wire 1; all others are known at once. */
#define HIGHEST_WAITS_FOR_LOWEST HEADER_OF_64, 2, 1, TIMES_32(CONSTANT(7)), TIMES_15(CONSTANT(7)), TIMES_15(CONSTANT(7)), 2, 0

/* Wire 0 is wire 1 + wire 2, of which wire 1 is known at once and wire 2 a round later. */
#define SUM_OF_EARLY_AND_LATE WIRES_4, 8, 2, 1, 2, 2, CONSTANT(1), 2, 3, CONSTANT(2)
/* Wire 0 is wire 1 where wire 3 is 4, else itself; wire 1 is wire 2, wire 2 is wire 3. */
#define KNOWN_BEFORE_ALL_READS WIRES_4, 13, 11, 2, 3, CONSTANT(4), 2, 1, 2, 0, 2, 2, 2, 3, CONSTANT(4)
/* Wire 2 is itself; the others become known one after the other. */
#define UNKNOWN_AMONG_KNOWN WIRES_4, 2, 1, 2, 3, 2, 2, CONSTANT(6)
/* Wires 0 and 3 are themselves, wire 1 is wire 2. */
#define LOWEST_AND_HIGHEST_UNKNOWN WIRES_4, 2, 0, 2, 2, CONSTANT(6), 2, 3
/* Wire 3 reads wires 0 and 2, of which wire 2 is itself; wire 0 is wire 1. */
#define HIGHER_UNKNOWN_FOR_GOOD WIRES_4, 2, 1, CONSTANT(8), 2, 2, 9, 2, 0, 2, 2

static const struct row rows[] = {
    {.name = "rising chain of 64: rounds", .call = call_rounds, .sheet = BYTES(RISING_CHAIN_OF_64), .output_length = 4, .answer = 65,
     .output_after = BYTES(NUMBER(5))},
    {.name = "highest waits for lowest", .call = call_rounds, .sheet = BYTES(HIGHEST_WAITS_FOR_LOWEST), .output_length = 4,
     .answer = 4, .output_after = BYTES(NUMBER(7))},
    {.name = "early and late", .call = call_rounds, .sheet = BYTES(SUM_OF_EARLY_AND_LATE), .output_length = 4, .answer = 4,
     .output_after = BYTES(NUMBER(3))},
    {.name = "known before all that it reads", .call = call_rounds, .sheet = BYTES(KNOWN_BEFORE_ALL_READS), .output_length = 4,
     .answer = 5, .output_after = BYTES(NUMBER(4))},

    {.name = "loop of 64: rounds", .call = call_rounds, .sheet = BYTES(LOOP_OF_64), .output_length = 4, .refused = 20, .place = 0},
    {.name = "only the highest of 64 unknown", .call = call_rounds, .sheet = BYTES(ONLY_HIGHEST_UNKNOWN), .output_length = 4,
     .refused = 20, .place = 63},
    {.name = "only the lowest of 64 unknown", .call = call_rounds, .sheet = BYTES(ONLY_LOWEST_UNKNOWN), .output_length = 4,
     .refused = 20, .place = 0},
    {.name = "unknown among known", .call = call_rounds, .sheet = BYTES(UNKNOWN_AMONG_KNOWN), .output_length = 4, .refused = 20,
     .place = 2},
    {.name = "lowest and highest unknown", .call = call_rounds, .sheet = BYTES(LOWEST_AND_HIGHEST_UNKNOWN), .output_length = 4,
     .refused = 20, .place = 0},
    {.name = "higher ones unknown for good", .call = call_rounds, .sheet = BYTES(HIGHER_UNKNOWN_FOR_GOOD), .output_length = 4,
     .refused = 20, .place = 2}
};

const struct table cases_of_rounds = TABLE(rows);
