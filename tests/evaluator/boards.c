/* The tick of a board of sheets, document 02, K9: the board is read, memory and rows are checked over all its sheets, and the first due sheet
 * of the ring has its instant on copies, which are handed over where it is accepted. Rests on reading.c for the sheets and on instants.c for
 * the checks of a sheet's parts, its start and its instant.
 */
#include "common/calls.h"
#include "evaluator/internal.h"

#include <string.h>

/* A sheet of a board: where it lies, what is read of it, and how many cells, inputs and outputs belong to the sheets before it. */
struct placed_sheet {
    const uint8_t *bytes;
    size_t length;
    size_t place;
    struct layout layout;
    unsigned first_cell;
    unsigned first_input;
    unsigned first_output;
};

struct board {
    unsigned count;
    unsigned cells;
    unsigned inputs;
    unsigned outputs;
    struct placed_sheet sheets[most_sheets];
};

/* ---- The board ---- */

/* Refusal 22: notes where the sheets lie without looking into them. */
static uint32_t read_frame(struct board *board, const uint8_t *bytes, size_t length)
{
    if (length == 0 || bytes[0] == 0 || bytes[0] > most_sheets)
        return refusal(22, 0);
    size_t place = 1;
    board->count = bytes[0];
    for (unsigned index = 0; index < board->count; index++) {
        struct placed_sheet *const sheet = &board->sheets[index];
        if (length - place < bytes_of_length)
            return refusal(22, place);
        sheet->length = bytes[place] + (size_t)256 * bytes[place + 1];
        sheet->place = place + bytes_of_length;
        sheet->bytes = bytes + sheet->place;
        if (length - sheet->place < sheet->length)
            return refusal(22, place);
        place = sheet->place + sheet->length;
    }
    return place < length ? refusal(22, place) : 0;
}

/* Refusals 1 to 11 of the sheets; their parts of memory and rows come one after the other. */
static uint32_t read_sheets(struct board *board)
{
    board->cells = board->inputs = board->outputs = 0;
    for (unsigned index = 0; index < board->count; index++) {
        struct placed_sheet *const sheet = &board->sheets[index];
        const uint32_t refused = read_sheet(&sheet->layout, sheet->bytes, sheet->length);
        if (refused != 0)
            return refused + (uint32_t)sheet->place;
        sheet->first_cell = board->cells;
        sheet->first_input = board->inputs;
        sheet->first_output = board->outputs;
        board->cells += sheet->layout.cells;
        board->inputs += sheet->layout.inputs;
        board->outputs += sheet->layout.outputs;
    }
    return 0;
}

/* ---- Memory and rows ---- */

static uint32_t check_all_memory(const struct board *board, const uint8_t *memory, size_t memory_length)
{
    if (memory_length != (size_t)bytes_of_cell * board->cells)
        return refusal(12, 0);
    for (unsigned index = 0; index < board->count; index++) {
        const struct placed_sheet *const sheet = &board->sheets[index];
        const uint8_t *const part = memory + bytes_of_cell * sheet->first_cell;
        const uint32_t refused = check_memory(&sheet->layout, part, (size_t)bytes_of_cell * sheet->layout.cells);
        if (refused != 0)
            return refused + sheet->first_cell;
    }
    return 0;
}

static uint32_t check_all_input(const struct board *board, const uint8_t *input, size_t input_length)
{
    if (input_length != (size_t)bytes_of_number * board->inputs)
        return refusal(14, 0);
    for (unsigned index = 0; index < board->count; index++) {
        const struct placed_sheet *const sheet = &board->sheets[index];
        const uint8_t *const part = input + bytes_of_number * sheet->first_input;
        const uint32_t refused = check_input(&sheet->layout, part, (size_t)bytes_of_number * sheet->layout.inputs);
        if (refused != 0)
            return refused + sheet->first_input;
    }
    return 0;
}

/* ---- Marks ---- */

/* Adds marks to those that are there; marks above the count are dropped. */
static void add_marks(const struct board *board, unsigned marks, bool *marked)
{
    for (unsigned sheet = 0; sheet < board->count; sheet++) {
        marked[sheet] = marked[sheet] || marks % 2 == 1;
        marks /= 2;
    }
}

static uint8_t marks_as_byte(const bool *marked)
{
    unsigned marks = 0;
    for (unsigned sheet = most_sheets; sheet != 0; sheet--)
        marks = 2 * marks + marked[sheet - 1];
    return (uint8_t)marks;
}

/* The sheets in the order in which they are looked at: the first goes behind the others until the one served last is the last. */
static void order_ring(const struct board *board, unsigned number, unsigned *ring)
{
    const unsigned last = board->count - 1;
    const unsigned served_last = number < board->count ? number : last;
    for (unsigned sheet = 0; sheet < most_sheets; sheet++)
        ring[sheet] = sheet;
    while (ring[last] != served_last) {
        const unsigned first = ring[0];
        memmove(ring, ring + 1, last * sizeof ring[0]);
        ring[last] = first;
    }
}

/* The first due sheet of the ring, or the count of sheets where none is due. */
static unsigned first_due(const struct board *board, unsigned number, const bool *due)
{
    unsigned ring[most_sheets];
    order_ring(board, number, ring);
    for (unsigned turn = 0; turn < board->count; turn++) {
        if (due[ring[turn]])
            return ring[turn];
    }
    return board->count;
}

/* ---- The tick ---- */

/* A restart gives every cell its start. */
static uint32_t serve(const struct placed_sheet *sheet, bool restart, uint8_t *memory, const uint8_t *input, uint8_t *output)
{
    const size_t memory_length = (size_t)bytes_of_cell * sheet->layout.cells;
    const size_t input_length = (size_t)bytes_of_number * sheet->layout.inputs;
    const size_t output_length = (size_t)bytes_of_number * sheet->layout.outputs;
    uint8_t *const memory_part = memory + bytes_of_cell * sheet->first_cell;
    uint8_t *const output_part = output + bytes_of_number * sheet->first_output;
    uint8_t own_memory[bytes_of_cell * most_cells];
    uint8_t own_output[bytes_of_number * most_outputs];
    memcpy(own_memory, memory_part, memory_length);
    if (restart)
        (void)evaluator_start(sheet->bytes, sheet->length, own_memory, memory_length);
    const uint32_t answer = evaluator_rounds(sheet->bytes, sheet->length, own_memory, memory_length,
                                             input + bytes_of_number * sheet->first_input, input_length, own_output, output_length);
    if (answer < first_refusal) {
        memcpy(memory_part, own_memory, memory_length);
        memcpy(output_part, own_output, output_length);
    }
    return answer;
}

uint32_t evaluator_tick(const uint8_t *bytes, size_t board_length, uint8_t *memory, size_t memory_length, const uint8_t *input,
                        size_t input_length, uint8_t *output, size_t output_length, uint8_t *state, size_t state_length)
{
    struct board board;
    bool due[most_sheets] = {false};
    bool restart[most_sheets] = {false};
    if (state_length != bytes_of_state)
        return 0;
    uint32_t refused = read_frame(&board, bytes, board_length);
    if (refused == 0)
        refused = read_sheets(&board);
    if (refused == 0)
        refused = check_all_memory(&board, memory, memory_length);
    if (refused == 0)
        refused = check_all_input(&board, input, input_length);
    if (refused == 0 && output_length != (size_t)bytes_of_number * board.outputs)
        refused = refusal(16, 0);
    if (refused != 0)
        return refused;

    add_marks(&board, state[state_stored], due);
    add_marks(&board, state[state_due], due);
    add_marks(&board, state[state_restart], restart);
    const unsigned sheet = first_due(&board, state[state_number], due);
    if (sheet < board.count) {
        due[sheet] = false;
        state[state_number] = state[state_sheet] = (uint8_t)sheet;
    }
    state[state_stored] = marks_as_byte(due);
    return sheet < board.count ? serve(&board.sheets[sheet], restart[sheet], memory, input, output) : 0;
}
