/* The calls of the meter sheet library as the evaluator has them: written separately in plain C from the rules of document 01 and the
 * requests of document 02, to be compared with the proved library and to be one yardstick of its benchmark. Rests on nothing but the C
 * language.
 *
 * Each call answers one number: a refusal is its number times 65536 plus its place. After a refusal every buffer holds what it held
 * before, but for the state of a tick. The buffers of one call must not overlap.
 */
#ifndef EVALUATOR_H
#define EVALUATOR_H

#include <stdbool.h>
#include <stddef.h>
#include <stdint.h>

/* Refusals 1 to 11. Success answers the count of cells. */
uint32_t evaluator_check(const uint8_t *sheet, size_t sheet_length);

/* Refusals 1 to 12. Success answers 0 and fills the memory. */
uint32_t evaluator_start(const uint8_t *sheet, size_t sheet_length, uint8_t *memory, size_t memory_length);

/* Refusals 1 to 16 and 20. Success answers the rounds and fills the output row; the memory is not written. */
uint32_t evaluator_preview(const uint8_t *sheet, size_t sheet_length, const uint8_t *memory, size_t memory_length,
                           const uint8_t *input, size_t input_length, uint8_t *output, size_t output_length);

/* Refusals 1 to 16 and 20. Success answers the rounds. */
uint32_t evaluator_rounds(const uint8_t *sheet, size_t sheet_length, uint8_t *memory, size_t memory_length,
                          const uint8_t *input, size_t input_length, uint8_t *output, size_t output_length);

/* Refusals 1 to 19. Success answers 0. */
uint32_t evaluator_scheduled(const uint8_t *sheet, size_t sheet_length, uint8_t *memory, size_t memory_length,
                             const uint8_t *input, size_t input_length, uint8_t *output, size_t output_length,
                             const uint8_t *schedule, size_t schedule_length);

/* Refusals 1 to 11, 17 and 21. Success answers the greatest depth and fills the list. */
uint32_t evaluator_schedule(const uint8_t *sheet, size_t sheet_length, uint8_t *list, size_t list_length);

/* Refusals 1 to 16, 20 and 22. Success answers the rounds of the sheet served, or 0 where none is due. The state is that of common/probe.h:
 * but for 1 to 16 and 22 the stored marks and the number are written, and where a sheet is served, also refused 20, the sheet. */
uint32_t evaluator_tick(const uint8_t *board, size_t board_length, uint8_t *memory, size_t memory_length, const uint8_t *input,
                        size_t input_length, uint8_t *output, size_t output_length, uint8_t *state, size_t state_length);

/* Refusals 1 to 11 of the first sheet, those of the second plus 2147483648, 23 and 16. Success answers 0 and fills the joined sheet. */
uint32_t evaluator_join(const uint8_t *first, size_t first_length, const uint8_t *second, size_t second_length, uint8_t *joined,
                        size_t joined_length);

/* What else is to be said of an instant in rounds that is refused 20: the lowest unknown wire, the lowest unknown wire that reaches itself
 * by reads through unknown wires, and whether the wire that is named waits for itself directly. */
struct stuck {
    unsigned lowest_unknown;
    unsigned by_reads;
    bool waits_directly;
};

struct stuck evaluator_stuck(const uint8_t *sheet, size_t sheet_length, const uint8_t *memory, const uint8_t *input);

/* What else is to be said of an instant in rounds that is accepted: the kept wires whose cell a kind 18 gave, and those where one did so
 * in a fresh place; one bit each. */
struct lasts {
    uint64_t given;
    uint64_t given_fresh;
};

struct lasts evaluator_lasts(const uint8_t *sheet, size_t sheet_length, const uint8_t *memory, const uint8_t *input);

/* And of its machines: how many ran; how many of these entered their other state, and in places not fresh came into or out of a body whose
 * memory was away from its start; how many were in state 1 and fresh; and whether the instant would be refused 20 if a machine were unknown
 * also where the body that rests is. */
struct machines {
    unsigned run;
    unsigned entered;
    unsigned entered_away;
    unsigned left_away;
    unsigned fresh_in_state_1;
    bool accepted_by_rest;
};

struct machines evaluator_machines(const uint8_t *sheet, size_t sheet_length, const uint8_t *memory, const uint8_t *input);

#endif
