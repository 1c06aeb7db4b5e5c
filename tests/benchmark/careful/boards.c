/* The tick of careful C. Which sheet is to be served is known before any is read, so that its reading is kept for the instant, and the others
 * are read one over the other; each has its parts checked while it is at hand. Rests on reading.c, instants.c and storing.c.
 */
#include "benchmark/careful/careful.h"
#include "benchmark/careful/internal.h"

#include <string.h>

/* Where the sheets of a board lie. */
struct frame {
    const uint8_t *board;
    unsigned count;
    size_t place[most_sheets];
    size_t length[most_sheets];
};

/* Memory and rows of the board, and how much of them the sheets read so far take. What 13 and 15 say first is kept, since sheets that are
 * still to be read and the lengths are refused before. */
struct whole {
    uint8_t *memory;
    size_t memory_length;
    const uint8_t *input;
    size_t input_length;
    uint8_t *output;
    size_t output_length;
    size_t cells;
    size_t inputs;
    size_t outputs;
    uint32_t refused_cell;
    uint32_t refused_input;
};

/* The sheet that is to be served: its reading, its inputs in the instant, and where its other parts begin. */
struct served {
    struct program program;
    struct instant instant;
    size_t first_cell;
    size_t first_output;
};

/* ---- The board ---- */

/* Refusal 22. */
static uint32_t read_frame(struct frame *frame, const uint8_t *board, size_t length)
{
    if (length == 0 || board[0] == 0 || board[0] > most_sheets)
        return refusal(22, 0);
    size_t place = 1;
    frame->board = board;
    frame->count = board[0];
    for (unsigned sheet = 0; sheet < frame->count; sheet++) {
        if (length - place < bytes_of_length)
            return refusal(22, place);
        const size_t sheet_length = board[place] | (size_t)board[place + 1] << 8;
        if (length - place - bytes_of_length < sheet_length)
            return refusal(22, place);
        frame->place[sheet] = place + bytes_of_length;
        frame->length[sheet] = sheet_length;
        place += bytes_of_length + sheet_length;
    }
    return place < length ? refusal(22, place) : 0;
}

/* Adds the parts of a sheet, which are looked at where memory and row reach so far: where they do not, 12 or 14 is to come. */
static void add_parts(struct whole *whole, const struct program *program, uint32_t *numbers)
{
    const size_t first_cell = whole->cells;
    const size_t first_input = whole->inputs;
    whole->cells += program->cells;
    whole->inputs += program->inputs;
    whole->outputs += program->outputs;
    if (whole->refused_cell == 0 && whole->memory_length >= bytes_of_cell * whole->cells) {
        const uint32_t refused = check_cells(program, whole->memory + bytes_of_cell * first_cell);
        whole->refused_cell = refused != 0 ? refused + (uint32_t)first_cell : 0;
    }
    if (whole->refused_input == 0 && whole->input_length >= bytes_of_number * whole->inputs) {
        const uint32_t refused = take_inputs(program, whole->input + bytes_of_number * first_input, numbers);
        whole->refused_input = refused != 0 ? refused + (uint32_t)first_input : 0;
    }
}

/* Refusals 1 to 11 of the sheets. */
static uint32_t read_sheets(const struct frame *frame, unsigned served_sheet, struct served *served, struct whole *whole)
{
    struct program other;
    uint32_t other_inputs[most_inputs];
    for (unsigned sheet = 0; sheet < frame->count; sheet++) {
        const bool is_served = sheet == served_sheet;
        struct program *const program = is_served ? &served->program : &other;
        const uint32_t refused = read_program(program, frame->board + frame->place[sheet], frame->length[sheet]);
        if (refused != 0)
            return refused + (uint32_t)frame->place[sheet];
        if (is_served) {
            served->first_cell = whole->cells;
            served->first_output = whole->outputs;
        }
        add_parts(whole, program, is_served ? served->instant.inputs : other_inputs);
    }
    return 0;
}

/* Refusals 12 to 16, all sheets being read. */
static uint32_t check_whole(const struct whole *whole)
{
    if (whole->memory_length != bytes_of_cell * whole->cells)
        return refusal(12, 0);
    if (whole->refused_cell != 0)
        return whole->refused_cell;
    if (whole->input_length != bytes_of_number * whole->inputs)
        return refusal(14, 0);
    if (whole->refused_input != 0)
        return whole->refused_input;
    return whole->output_length != bytes_of_number * whole->outputs ? refusal(16, 0) : 0;
}

/* ---- The tick ---- */

/* The first due sheet behind the one served last, else the first of all; or most_sheets where none is due. */
static unsigned first_due(unsigned due, unsigned count, unsigned number)
{
    const unsigned served_last = number < count ? number : count - 1;
    const unsigned behind = due >> (served_last + 1) << (served_last + 1);
    return due == 0 ? most_sheets : lowest_of(behind != 0 ? behind : due);
}

/* The instant on the parts in place. A restart has it on a starting memory of its own, which is handed over where the instant is accepted:
 * refused 20, the old memory stays. */
static uint32_t serve(struct served *served, const struct whole *whole, bool restart)
{
    uint8_t started[bytes_of_cell * most_cells];
    const unsigned cells = served->program.cells;
    uint8_t *const part = whole->memory + bytes_of_cell * served->first_cell;
    uint8_t *const memory = restart ? started : part;
    if (restart)
        start_cells(&served->program, started, 0, cells);
    begin_instant(&served->instant, &served->program, memory);
    const uint32_t answer = make_rounds(&served->instant, memory, whole->output + bytes_of_number * served->first_output);
    if (restart && answer < first_refusal)
        memcpy(part, started, (size_t)bytes_of_cell * cells);
    return answer;
}

uint32_t careful_tick(const uint8_t *board, size_t board_length, uint8_t *memory, size_t memory_length, const uint8_t *input,
                      size_t input_length, uint8_t *output, size_t output_length, uint8_t *state, size_t state_length)
{
    struct frame frame;
    struct served served;
    struct whole whole = {memory, memory_length, input, input_length, output, output_length, 0, 0, 0, 0, 0};
    if (state_length != bytes_of_state)
        return 0;
    uint32_t refused = read_frame(&frame, board, board_length);
    if (refused != 0)
        return refused;
    const unsigned due = (state[state_stored] | state[state_due]) & ((1u << frame.count) - 1);
    const unsigned sheet = first_due(due, frame.count, state[state_number]);
    refused = read_sheets(&frame, sheet, &served, &whole);
    if (refused == 0)
        refused = check_whole(&whole);
    if (refused != 0)
        return refused;

    state[state_stored] = (uint8_t)(due & ~(1u << sheet));
    if (sheet == most_sheets)
        return 0;
    state[state_number] = state[state_sheet] = (uint8_t)sheet;
    return serve(&served, &whole, (state[state_restart] >> sheet & 1) != 0);
}
