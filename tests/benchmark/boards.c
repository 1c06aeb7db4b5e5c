/* The boards of the benchmark, joined from its sheets, and a tick with a board's buffers. Rests on the sheets and the table of calls. */
#include "benchmark/boards.h"

#include <string.h>

/* No sheet has this number: the board is new. */
enum { no_marks = 0, all_marks = 255, no_sheet = 255 };

/* Sheets of a group: the first ones, and again from the first where it has no more. */
struct share {
    group_maker *maker;
    unsigned count;
};

/* The shares of a board end with one that has no sheets. The small ones are as meters have them: tariff, relay and display. */
static const struct share small_sheets[] = {{make_quarter, 1}, {make_relay, 1}, {make_quarter, 1}, {NULL, 0}};
static const struct share quarter_sheets[] = {{make_quarter, 8}, {NULL, 0}};
static const struct share irregular_2000[] = {{make_irregular_2000, 3}, {NULL, 0}};
static const struct share irregular_4000[] = {{make_irregular_4000, 8}, {NULL, 0}};
static const struct share one_of_each[] = {{make_quarter, 1},        {make_chain, 1},          {make_wide, 1},
                                           {make_deep, 1},           {make_kept, 1},           {make_machines, 1},
                                           {make_irregular_2000, 1}, {make_irregular_4000, 1}, {NULL, 0}};

static const struct {
    const char *name;
    const struct share *shares;
    uint8_t due;
    uint8_t restart;
} plans[boards_timed] = {
    {"3 small sheets", small_sheets, all_marks, no_marks},
    {"8 quarter sheets", quarter_sheets, all_marks, no_marks},
    {"3 random, 2,000 bytes", irregular_2000, all_marks, no_marks},
    {"8 random, 4,000 bytes", irregular_4000, all_marks, no_marks},
    {"8 sheets, one of each", one_of_each, all_marks, no_marks},
    {"3 small, none due", small_sheets, no_marks, no_marks},
    {"3 small, restarts", small_sheets, all_marks, all_marks},
    {"8 sheets, none due", one_of_each, no_marks, no_marks},
    {"8 sheets, restarts", one_of_each, all_marks, all_marks},
};

/* Adds bytes behind those of a buffer. */
static void join(uint8_t *buffer, size_t *length, const uint8_t *bytes, size_t added)
{
    memcpy(buffer + *length, bytes, added);
    *length += added;
}

static void add_sheet(struct board *board, const struct sheet *sheet)
{
    const uint8_t length[bytes_of_length] = {(uint8_t)(sheet->length & 255), (uint8_t)(sheet->length >> 8)};
    board->count++;
    join(board->bytes, &board->length, length, sizeof length);
    join(board->bytes, &board->length, sheet->bytes, sheet->length);
    join(board->memory, &board->memory_length, sheet->memory, sheet->memory_length);
    join(board->input, &board->input_length, sheet->input, sheet->input_length);
    board->output_length += sheet->output_length;
}

static void add_share(struct board *board, const struct share *share)
{
    static struct group group;
    memset(&group, 0, sizeof group);
    share->maker(&group);
    start_group(&group);
    for (unsigned index = 0; index < share->count; index++)
        add_sheet(board, &group.sheets[index % group.count]);
}

void make_boards(struct board boards[boards_timed])
{
    for (unsigned index = 0; index < boards_timed; index++) {
        struct board *const board = &boards[index];
        board->name = plans[index].name;
        board->length = 1;
        for (const struct share *share = plans[index].shares; share->count != 0; share++)
            add_share(board, share);
        board->bytes[0] = (uint8_t)board->count;
        board->state[state_due] = plans[index].due;
        board->state[state_restart] = plans[index].restart;
        board->state[state_number] = no_sheet;
    }
}

uint32_t tick_of(const struct implementation *implementation, struct board *board)
{
    const struct arguments arguments = {
        .of = {
            [role_board] = {board->bytes, board->length},
            [role_memory] = {board->memory, board->memory_length},
            [role_input] = {board->input, board->input_length},
            [role_output] = {board->output, board->output_length},
            [role_state] = {board->state, sizeof board->state},
        },
    };
    return run(implementation, call_tick, &arguments);
}
