/* The step of a case that changes the frame of a board, its count and its lengths, in every way that one byte can be changed, and that cuts
 * it at every place and makes it longer. What the refusal must be is known from the board beside the comparison with the evaluator. Rests on
 * the harness and on the board that the step before left.
 */
#include "comparison/case.h"

enum { values_of_byte = 256, longer_by = 3 };

enum { refused_frame = 22 };

/* The changed board stands in "tried"; nothing may be left of it but a refusal. */
static uint32_t compare_refused(struct harness *harness, struct workspace *workspace)
{
    struct buffers *const tried = &workspace->tried;
    const uint32_t answer = compare_call(harness, call_tick, tried, tried);
    if (answer < first_refusal)
        report_mismatch(harness, call_tick, tried, "K9: a board with a changed frame is accepted");
    return answer;
}

/* Any other count leaves bytes over or lacks a length. With another length the sheets before it pass and its own does not, since no sheet
 * begins another; unless the frame is refused first. */
static void change_byte(struct harness *harness, struct workspace *workspace, size_t place)
{
    uint8_t *const byte = &workspace->tried.of[role_board].bytes[place];
    const uint8_t sound = *byte;
    for (unsigned value = 0; value < values_of_byte; value++) {
        *byte = (uint8_t)value;
        if (value == sound)
            continue;
        const uint32_t refused = compare_refused(harness, workspace) / first_refusal;
        if (refused != refused_frame && (place == 0 || refused > last_refusal_of_sheet))
            report_mismatch(harness, call_tick, &workspace->tried, "K9: a changed frame is not refused for that");
        harness->statistics.count[counter_frames_with_one_byte_changed]++;
    }
    *byte = sound;
}

static void change_end(struct harness *harness, struct workspace *workspace)
{
    struct buffer *const board = &workspace->tried.of[role_board];
    const size_t sound = board->length;
    for (board->length = 0; board->length < sound; board->length++) {
        if (compare_refused(harness, workspace) / first_refusal != refused_frame)
            report_mismatch(harness, call_tick, &workspace->tried, "K9: a cut board is not refused for that");
        harness->statistics.count[counter_frames_cut]++;
    }
    for (unsigned more = 1; more <= longer_by; more++) {
        change_length(&harness->random, board, sound + more);
        if (compare_refused(harness, workspace) != refused_frame * first_refusal + sound)
            report_mismatch(harness, call_tick, &workspace->tried, "K9: bytes left over are not refused at the first of them");
        harness->statistics.count[counter_frames_longer]++;
    }
}

void compare_frames(struct harness *harness, struct workspace *workspace)
{
    const struct board *const board = &workspace->board;
    if (harness->case_number % cases_for_frames != 0)
        return;
    copy_buffers(&workspace->tried, &workspace->given);
    change_byte(harness, workspace, 0);
    for (unsigned sheet = 0; sheet < board->count; sheet++) {
        for (unsigned byte = 0; byte < bytes_of_length; byte++)
            change_byte(harness, workspace, place_of_length(board, sheet) + byte);
    }
    change_end(harness, workspace);
}
