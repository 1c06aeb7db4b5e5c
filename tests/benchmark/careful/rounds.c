/* The rounds of careful C. A round works out only those unknown wires that read a wire which the round before made known. Rests on
 * values.c, and on the reads of each wire, which reading.c finds.
 */
#include "benchmark/careful/careful.h"
#include "benchmark/careful/internal.h"

#include <string.h>

/* The reads of the wires, turned round. */
static void gather_readers(const struct program *program, uint64_t *readers)
{
    memset(readers, 0, most_wires * sizeof *readers);
    for (unsigned wire = 0; wire < program->wires; wire++) {
        for (uint64_t left = program->wire_reads[wire]; left != 0; left &= left - 1)
            readers[__builtin_ctzll(left)] |= UINT64_C(1) << wire;
    }
}

static uint64_t readers_of(const uint64_t *readers, uint64_t wires)
{
    uint64_t all = 0;
    for (uint64_t left = wires; left != 0; left &= left - 1)
        all |= readers[__builtin_ctzll(left)];
    return all;
}

/* Works the wires out from the values of the instant, and says which are known now. */
static uint64_t work_out(struct instant *instant, uint64_t wires)
{
    uint64_t known = 0;
    for (uint64_t left = wires; left != 0; left &= left - 1) {
        const unsigned wire = (unsigned)__builtin_ctzll(left);
        const uint64_t value = value_of(instant, instant->program->wire_node[wire], false);
        if (is_known(value)) {
            instant->wires[wire] = (uint32_t)value;
            known |= UINT64_C(1) << wire;
        }
    }
    return known;
}

void begin_rounds(struct instant *instant, struct rounds *rounds)
{
    rounds->unknown = UINT64_MAX >> (most_wires - instant->program->wires);
    rounds->due = rounds->unknown;
    rounds->made = 0;
    gather_readers(instant->program, rounds->readers);
    memset(instant->wires, 0, sizeof instant->wires);
}

bool make_round(struct instant *instant, struct rounds *rounds)
{
    const uint64_t made_known = work_out(instant, rounds->due);
    instant->known |= made_known;
    rounds->unknown &= ~made_known;
    rounds->due = readers_of(rounds->readers, made_known) & rounds->unknown;
    rounds->made++;
    return made_known != 0;
}

struct visits careful_visits(const uint8_t *sheet, size_t sheet_length, const uint8_t *memory, size_t memory_length, const uint8_t *input,
                             size_t input_length, size_t output_length)
{
    struct program program;
    struct instant instant;
    struct rounds rounds;
    struct visits visits = {0, 0, 0};
    if (prepare(&program, &instant, sheet, sheet_length, memory, memory_length, input, input_length, output_length) != 0)
        return visits;
    begin_rounds(&instant, &rounds);
    do {
        visits.made += (unsigned)__builtin_popcountll(rounds.due);
        visits.unknown += (unsigned)__builtin_popcountll(rounds.unknown);
        visits.all += program.wires;
    } while (make_round(&instant, &rounds));
    return visits;
}
