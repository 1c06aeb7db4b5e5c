/* Nuthatchbed: the check, the start and the two instants of a meter sheet.
 *
 * Link with libnuthatchbed.a. The library allocates nothing, keeps nothing between calls and may be called from several threads at
 * once, each with buffers of its own.
 *
 * Every buffer belongs to the caller and is used only during the call. A buffer is given by a pointer, which is not null even where
 * the length is 0, and its length in bytes. No buffer that is written may overlap another buffer of the same call.
 *
 * Every call takes buffers of any contents and any length, and answers one number: on a refusal the refusal's number times 65,536
 * plus its place, and then every buffer holds what it held before; else what is said at the call, which is below 65,536.
 *
 * A wire whose type byte is 2 or 3 is kept: it owns a cell, which starts false or 0 and in which each accepted instant stores the wire's value. No
 * reset touches it, and kind 18 gives it.
 *
 * Kind 19 is a machine with two states: it owns a cell, a Boolean with mark 1, which is false in state 0. The condition of the current state is
 * asked; if it holds, the other state is entered in the same instant and its body is fresh. The body that runs gives the value.
 *
 * A number is 32 bits in two's complement. Add, subtract and negate stop at its ends, 2147483647 and -2147483648: a full register stays
 * full.
 */
#ifndef NUTHATCHBED_H
#define NUTHATCHBED_H

#include <stddef.h>
#include <stdint.h>

#ifdef __cplusplus
extern "C" {
#endif

/* Limits of a sheet. */
enum {
    NUTHATCHBED_SHEET_BYTES = 4096,
    NUTHATCHBED_INPUTS = 16,
    NUTHATCHBED_WIRES = 64,
    NUTHATCHBED_OUTPUTS = 16,
    NUTHATCHBED_CELLS = 64,
    NUTHATCHBED_CELL_BYTES = 5,
    NUTHATCHBED_ENTRY_BYTES = 4
};

/* The numbers of the refusals. The place is a byte of the sheet for 1 to 11, else what the comment says. */
enum {
    NUTHATCHBED_SHEET_LENGTH = 1,     /* length 0 or above 4,096 */
    NUTHATCHBED_CUT = 2,              /* a field or kind byte is missing or cut; place: the sheet's length */
    NUTHATCHBED_COUNT_RANGE = 3,      /* a count out of range */
    NUTHATCHBED_TYPE_BYTE = 4,        /* a type byte of an input above 1, of a wire above 3 */
    NUTHATCHBED_OUTPUT_WIRE = 5,      /* an output that is no wire, or not above the one before */
    NUTHATCHBED_KIND = 6,             /* a kind above 19 */
    NUTHATCHBED_BODY = 7,             /* a wire or input that is not there, a wire that is not kept at kind 18, or a Boolean above 1 */
    NUTHATCHBED_LEVEL = 8,            /* a level above 16 */
    NUTHATCHBED_TYPE_ASKED = 9,       /* a type that is not the one asked */
    NUTHATCHBED_CELL_LIMIT = 10,      /* a 65th cell, where those of all kept wires are counted first */
    NUTHATCHBED_LEFT_OVER = 11,       /* bytes left over */
    NUTHATCHBED_MEMORY_LENGTH = 12,   /* length is not 5 times the cells; place: 0 */
    NUTHATCHBED_CELL_CONTENT = 13,    /* a cell that is not valid; place: its number */
    NUTHATCHBED_INPUT_LENGTH = 14,    /* length is not 4 times the inputs; place: 0 */
    NUTHATCHBED_INPUT_CONTENT = 15,   /* a Boolean input that is neither 0 nor 1; place: its number */
    NUTHATCHBED_OUTPUT_LENGTH = 16,   /* length is not 4 times the outputs; place: 0 */
    NUTHATCHBED_SCHEDULE_LENGTH = 17, /* length is not the count of wires; place: 0 */
    NUTHATCHBED_SCHEDULE_ENTRY = 18,  /* an entry that is no wire, or named before; place: its position */
    NUTHATCHBED_SCHEDULE_ORDER = 19,  /* a wire that reads itself or a wire not earlier in the list; place: its position */
    NUTHATCHBED_STAYS_UNKNOWN = 20    /* a wire stays unknown; place: the lowest wire that waits for itself */
};

/* The refusal's number in an answer, 0 where the call was not refused; and the refusal's place. */
static inline uint32_t nuthatchbed_refusal(uint32_t answer) { return answer / 65536u; }
static inline uint32_t nuthatchbed_place(uint32_t answer) { return answer % 65536u; }

/* Checks a sheet. Answers the count of its cells, or a refusal 1 to 11. */
uint32_t nuthatchbed_check(const uint8_t *sheet, size_t sheet_length);

/* Fills a memory of 5 bytes for each cell with the starting memory of the sheet. Answers 0, or a refusal 1 to 12. */
uint32_t nuthatchbed_start(const uint8_t *sheet, size_t sheet_length, uint8_t *memory, size_t memory_length);

/* One instant worked out in rounds. The input row has 4 bytes for each input and the output row 4 for each output, lowest byte
 * first; the memory becomes the next memory. Answers the rounds, at most one more than the wires, or a refusal 1 to 16 or 20. */
uint32_t nuthatchbed_rounds(const uint8_t *sheet, size_t sheet_length, uint8_t *memory, size_t memory_length,
                            const uint8_t *input, size_t input_length, uint8_t *output, size_t output_length);

/* One instant worked out along a schedule, a list of one byte for each wire: a wire number. Leaves the same memory and output row
 * as the instant in rounds. Answers 0, or a refusal 1 to 19. */
uint32_t nuthatchbed_scheduled(const uint8_t *sheet, size_t sheet_length, uint8_t *memory, size_t memory_length,
                               const uint8_t *input, size_t input_length, uint8_t *output, size_t output_length,
                               const uint8_t *schedule, size_t schedule_length);

#ifdef __cplusplus
}
#endif

#endif
