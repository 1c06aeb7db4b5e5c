/* The calls as careful C has them, for speed: the benchmark's second yardstick. They answer as the evaluator does. Rests on the table
 * of calls.
 */
#ifndef CAREFUL_H
#define CAREFUL_H

#include "common/calls.h"

uint32_t careful_check(const uint8_t *sheet, size_t sheet_length);

uint32_t careful_start(const uint8_t *sheet, size_t sheet_length, uint8_t *memory, size_t memory_length);

uint32_t careful_preview(const uint8_t *sheet, size_t sheet_length, const uint8_t *memory, size_t memory_length,
                         const uint8_t *input, size_t input_length, uint8_t *output, size_t output_length);

uint32_t careful_rounds(const uint8_t *sheet, size_t sheet_length, uint8_t *memory, size_t memory_length,
                        const uint8_t *input, size_t input_length, uint8_t *output, size_t output_length);

uint32_t careful_scheduled(const uint8_t *sheet, size_t sheet_length, uint8_t *memory, size_t memory_length,
                           const uint8_t *input, size_t input_length, uint8_t *output, size_t output_length,
                           const uint8_t *schedule, size_t schedule_length);

uint32_t careful_schedule(const uint8_t *sheet, size_t sheet_length, uint8_t *list, size_t list_length);

uint32_t careful_tick(const uint8_t *board, size_t board_length, uint8_t *memory, size_t memory_length, const uint8_t *input,
                      size_t input_length, uint8_t *output, size_t output_length, uint8_t *state, size_t state_length);

uint32_t careful_join(const uint8_t *first, size_t first_length, const uint8_t *second, size_t second_length, uint8_t *joined,
                      size_t joined_length);

/* How often the rounds of an instant work a wire out, how many wires were unknown before each round, and how many there are, added up over
 * the rounds. All 0 for what 1 to 16 refuse. */
struct visits {
    unsigned made;
    unsigned unknown;
    unsigned all;
};

struct visits careful_visits(const uint8_t *sheet, size_t sheet_length, const uint8_t *memory, size_t memory_length, const uint8_t *input,
                             size_t input_length, size_t output_length);

static const struct implementation careful = {careful_check,     careful_start,    careful_preview, careful_rounds,
                                              careful_scheduled, careful_schedule, careful_tick,    careful_join};

#endif
