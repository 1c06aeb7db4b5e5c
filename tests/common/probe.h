/* The calls of the library that C is not given, as the tests reach them: the archive libprobe.a. It is no part of what is delivered, only
 * the tests link it; the delivered header has its four calls and no more. Later requests add functions here. Rests on nothing.
 *
 * Buffers and answers are as include/nuthatchbed.h says.
 */
#ifndef PROBE_H
#define PROBE_H

#include <stddef.h>
#include <stdint.h>

/* Makes a schedule: fills a list of one byte for each wire. Answers the greatest depth, or a refusal 1 to 11, 17 or 21. */
uint32_t probe_schedule(const uint8_t *sheet, size_t sheet_length, uint8_t *list, size_t list_length);

/* Answers as nuthatchbed_rounds and fills the output row as it does; the memory is only read. */
uint32_t probe_preview(const uint8_t *sheet, size_t sheet_length, const uint8_t *memory, size_t memory_length, const uint8_t *input,
                       size_t input_length, uint8_t *output, size_t output_length);

/* A tick of a board of at most 65,535 bytes. The state has 8 bytes: the due marks, the restart marks, the stored marks and the number of
 * the sheet served last, then the sheet that is served now; what follows is left. Answers the rounds of the sheet served, 0 where none is
 * due, or a refusal 1 to 16, 20 or 22. Stored marks and number are written but for 1 to 16 and 22, the sheet served also with 20, and
 * memory and output row only where one is served and accepted. With a state of another length it answers 0 and writes nothing. */
uint32_t probe_tick(const uint8_t *board, size_t board_length, uint8_t *memory, size_t memory_length, const uint8_t *input,
                    size_t input_length, uint8_t *output, size_t output_length, uint8_t *state, size_t state_length);

/* Joins two sheets into one, which fills a buffer of exactly its length, the sum of both lengths less 3. Answers 0, or a refusal 1 to 11
 * of the first sheet; 1 to 11 of the second plus 2147483648, with the place counted in it; 23 where a joined count or the length is above
 * its limit; then 16 for the buffer. */
uint32_t probe_join(const uint8_t *first, size_t first_length, const uint8_t *second, size_t second_length, uint8_t *joined,
                    size_t joined_length);

#endif
