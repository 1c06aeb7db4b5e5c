/* Makes the call of each row with guarded buffers and compares the answer and the bytes. Rests on the library. */
#include "cases/runner.h"

#include "common/library.h"

#include <stdbool.h>
#include <stdio.h>
#include <string.h>

enum { canary_bytes = 16, canary = 219, largest_buffer = sixteen_bits + 64 };

struct guarded {
    uint8_t bytes[canary_bytes + largest_buffer + canary_bytes];
    size_t length;
};

/* Where there are no bytes to copy, the content is rubbish. */
static uint8_t *guard(struct guarded *guarded, struct bytes given)
{
    uint8_t *const content = guarded->bytes + canary_bytes;
    guarded->length = given.length;
    memset(guarded->bytes, canary, canary_bytes);
    memset(content, rubbish, given.length);
    if (given.start != NULL)
        memcpy(content, given.start, given.length);
    memset(content + given.length, canary, canary_bytes);
    return content;
}

static bool holds(const struct guarded *guarded, const uint8_t *bytes)
{
    const uint8_t *const content = guarded->bytes + canary_bytes;
    bool same = true;
    for (size_t index = 0; index < guarded->length; index++)
        same = same && content[index] == (bytes != NULL ? bytes[index] : rubbish);
    for (size_t index = 0; index < canary_bytes; index++)
        same = same && guarded->bytes[index] == canary && content[guarded->length + index] == canary;
    return same;
}

/* What a row gives to a call; the output row and the buffer for a joined sheet are rubbish. */
static struct bytes given_by(const struct row *row, enum role role)
{
    const struct bytes given[roles] = {
        [role_sheet] = row->sheet,
        [role_memory] = row->memory,
        [role_input] = row->input,
        [role_output] = {NULL, row->output_length},
        [role_schedule] = row->schedule,
        [role_board] = row->board,
        [role_state] = row->state,
        [role_first] = row->first,
        [role_second] = row->second,
        [role_joined] = {NULL, row->joined_length},
    };
    return given[role];
}

/* What a row expects afterwards. */
static const uint8_t *expected_by(const struct row *row, enum call call, enum role role)
{
    const struct bytes after[roles] = {
        [role_memory] = row->memory_after,
        [role_output] = row->output_after,
        [role_schedule] = row->schedule_after,
        [role_state] = row->state_after,
        [role_joined] = row->joined_after,
    };
    return may_write(call, role, row->refused) ? after[role].start : given_by(row, role).start;
}

static bool all_hold(const struct row *row, enum call call, const struct guarded *buffers)
{
    bool hold = true;
    for (unsigned role = 0; role < roles; role++)
        hold = hold && holds(&buffers[role], expected_by(row, call, role));
    return hold;
}

static uint32_t answer_expected_by(const struct row *row)
{
    if (row->refused == 0)
        return row->answer;
    return row->refused * first_refusal + row->place + (row->in_second ? OF_SECOND : 0);
}

static bool passes(const struct row *row, enum call call)
{
    static struct guarded buffers[roles];
    const uint32_t expected = answer_expected_by(row);
    struct arguments arguments;
    for (unsigned role = 0; role < roles; role++) {
        arguments.of[role].bytes = guard(&buffers[role], given_by(row, role));
        arguments.of[role].length = buffers[role].length;
    }
    const uint32_t answer = run(&library, call, &arguments);
    if (answer != expected) {
        printf("failed: %s (%s): answer %u, expected %u\n", row->name, rules_of[call].name, (unsigned)answer, (unsigned)expected);
        return false;
    }
    if (!all_hold(row, call, buffers)) {
        printf("failed: %s (%s): other bytes than expected\n", row->name, rules_of[call].name);
        return false;
    }
    return true;
}

/* A board of two sheets up to the second, whose length comes last. */
static const uint8_t board_up_to_second[] = {2, 7, 0, 0, 1, 0, 1, 0, ALWAYS, 0, 0};

enum { place_of_second = sizeof board_up_to_second, longest_board = sixteen_bits - 1 };

/* The sheet as the second of a board, where the place of its refusal is counted in the board. */
static bool passes_in_board(const struct row *row)
{
    static uint8_t board[longest_board];
    const size_t length = row->sheet.length;
    memcpy(board, board_up_to_second, place_of_second);
    board[place_of_second - 2] = (uint8_t)(length & 255);
    board[place_of_second - 1] = (uint8_t)(length >> 8);
    memcpy(board + place_of_second, row->sheet.start, length);
    const struct row in_board = {.name = row->name, .board = {board, place_of_second + length}, .state = LENT(bytes_of_state),
                                 .refused = row->refused, .place = place_of_second + row->place};
    return passes(&in_board, call_tick);
}

/* The sheet as the first of two that are joined, where the second would be refused too, and as the second behind one that passes. */
static bool passes_as_first(const struct row *row)
{
    static const uint8_t cut[] = {0, 1};
    const struct row join = {.name = row->name, .first = row->sheet, .second = ALL_OF(cut), .joined_length = row->sheet.length,
                             .refused = row->refused, .place = row->place};
    return passes(&join, call_join);
}

static bool passes_as_second(const struct row *row)
{
    static const uint8_t passing[] = {1, 0, 2, 0, 2, 1, 1, INPUT(0), 15, 0, LAST(1)};
    const struct row join = {.name = row->name, .first = ALL_OF(passing), .second = row->sheet,
                             .joined_length = row->sheet.length, .refused = row->refused, .place = row->place, .in_second = true};
    return passes(&join, call_join);
}

static void count(struct tally *tally, bool passed)
{
    if (passed)
        tally->passed++;
    else
        tally->failed++;
}

void run_table(const struct table *table, struct tally *tally)
{
    for (size_t index = 0; index < table->count; index++) {
        const struct row *const row = &table->rows[index];
        /* A sheet that the check refuses is refused alike by all the others, in a board and in a join; and each instant in rounds is
         * previewed. */
        const bool by_all = row->call == call_check && row->refused != 0;
        const unsigned first = row->call == call_rounds ? call_preview : row->call;
        const unsigned last = by_all ? calls_of_sheet - 1 : row->call;
        for (unsigned call = first; call <= last; call++)
            count(tally, passes(row, call));
        if (by_all && row->sheet.length <= longest_board - place_of_second)
            count(tally, passes_in_board(row));
        if (by_all) {
            count(tally, passes_as_first(row));
            count(tally, passes_as_second(row));
        }
    }
}
