/* Ticks with damage: of the board, of memory and rows, of both, or with a state of another length; and what they met. Rests on the harness
 * and on the generator's boards and spoiling.
 */
#include "comparison/case.h"

#include "generator/spoiling.h"

enum { refused_sheet_length = 1, refused_cell = 13, refused_input = 15, refused_frame = 22 };

static size_t length_at(const struct buffer *board, size_t place)
{
    return board->bytes[place] + ((size_t)board->bytes[place + 1] << 8);
}

/* Refused 22 behind the count, at a length or behind the last sheet. */
static void note_frame(unsigned long *count, const struct buffer *board, size_t place)
{
    unsigned sheets = 0;
    for (size_t length = 1; length < place; length += bytes_of_length + length_at(board, length))
        sheets++;
    count[counter_frames_refused_at_length] += sheets < board->bytes[0];
    count[counter_frames_refused_at_end] += sheets < board->bytes[0] && place == board->length;
    count[counter_frames_refused_left_over] += sheets == board->bytes[0];
}

static void note_sheet(unsigned long *count, const struct buffer *board, uint32_t refused, size_t place)
{
    const size_t end_of_first = 1 + bytes_of_length + length_at(board, 1);
    count[counter_board_sheets_refused_behind_first] += place > end_of_first;
    if (refused != refused_sheet_length)
        return;
    const bool empty = length_at(board, place - bytes_of_length) == 0;
    count[counter_board_sheets_refused_empty] += empty;
    count[counter_board_sheets_refused_too_long] += !empty;
}

/* Where only memory and rows are spoilt, the generator knows the parts. */
static void note_refused_tick(unsigned long *count, const struct workspace *workspace, uint32_t answer, bool board_damaged)
{
    const struct buffer *const board = &workspace->tried.of[role_board];
    const uint32_t refused = answer / first_refusal;
    const uint32_t place = answer % first_refusal;
    if (refused == refused_frame && place == 0)
        count[counter_frames_refused_at_count]++;
    else if (refused == refused_frame)
        note_frame(count, board, place);
    else if (refused != 0 && refused <= last_refusal_of_sheet)
        note_sheet(count, board, refused, place);
    else if (refused == refused_cell && !board_damaged)
        count[counter_board_cells_refused_behind_first] += place >= workspace->board.sheets[0].cells;
    else if (refused == refused_input && !board_damaged)
        count[counter_board_inputs_refused_behind_first] += place >= workspace->board.sheets[0].plan.inputs;
}

/* It is no tick. */
static void compare_other_state(struct harness *harness, struct workspace *workspace)
{
    struct buffers *const tried = &workspace->tried;
    struct buffers *const ticked = &workspace->ticked;
    spoil_length(&harness->random, &tried->of[role_state]);
    bool nothing = compare_call(harness, call_tick, tried, ticked) == 0;
    for (unsigned role = 0; role < roles; role++)
        nothing = nothing && same_bytes(&tried->of[role], &ticked->of[role]);
    if (!nothing)
        report_mismatch(harness, call_tick, tried, "a state of another length is taken");
    harness->statistics.count[counter_ticks_other_state]++;
}

/* The tick that comes next with a damaged board, spoilt memory and rows, or both, for the order of the refusals. The sequence goes on as if
 * it had not been. */
void compare_damaged_tick(struct harness *harness, struct workspace *workspace)
{
    struct random *const random = &harness->random;
    struct buffers *const tried = &workspace->tried;
    const unsigned manner = below(random, 100);
    const bool board_damaged = manner < 55;
    copy_buffers(tried, &workspace->given);
    if (manner >= 95) {
        compare_other_state(harness, workspace);
        return;
    }
    if (board_damaged)
        damage_board(random, &workspace->board, &tried->of[role_board]);
    if (manner >= 45)
        spoil_memory_and_rows(random, tried);
    const uint32_t answer = compare_call(harness, call_tick, tried, tried);
    note_refused_tick(harness->statistics.count, workspace, answer, board_damaged);
}
