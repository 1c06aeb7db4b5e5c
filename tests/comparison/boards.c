/* The step of a case that ticks a board, from tick to tick with what the one before handed back. Beside the comparison with the evaluator
 * marks, number and what the generator knows of the sheets tell which one is served and what may be written; due sheets are counted until
 * they are served; what the other sheets hold must play no part, and the sheet by itself must give the same. Rests on the harness, on the
 * generator's boards and on the evaluator's start.
 */
#include "comparison/case.h"

#include "evaluator/evaluator.h"

#include <string.h>

enum { fewest_ticks = 50, most_ticks = 60 };

enum { kind_last = 18, new_board = 255 };

/* How often sheets are marked, in percent of the ticks; for each sheet the ticks since it became due, or 0 where it is not, and whether it
 * was accepted so far. */
struct sequence {
    unsigned busy;
    unsigned waiting[most_sheets];
    bool accepted[most_sheets];
};

static unsigned byte_of_state(const struct buffers *buffers, unsigned index)
{
    return buffers->of[role_state].bytes[index];
}

static bool is_marked(unsigned marks, unsigned sheet)
{
    return (marks >> sheet & 1) != 0;
}

/* ---- Which sheet is served ---- */

/* The marks of all sheets of the board and of the due ones, and whether and which sheet is served and restarted. */
struct turn {
    unsigned sheets;
    unsigned due;
    bool serves;
    unsigned sheet;
    bool restarts;
};

/* From the farthest sheet of the ring to the next: the last one met is served. */
static struct turn turn_of(const struct board *board, const struct buffers *given)
{
    const unsigned number = byte_of_state(given, state_number);
    const unsigned served_last = number < board->count ? number : board->count - 1;
    struct turn turn = {.sheets = (1u << board->count) - 1};
    turn.due = (byte_of_state(given, state_due) | byte_of_state(given, state_stored)) & turn.sheets;
    for (unsigned distance = board->count; distance != 0; distance--) {
        const unsigned sheet = (served_last + distance) % board->count;
        if (!is_marked(turn.due, sheet))
            continue;
        turn.serves = true;
        turn.sheet = sheet;
    }
    turn.restarts = turn.serves && is_marked(byte_of_state(given, state_restart), turn.sheet);
    return turn;
}

static void demand_state(struct harness *harness, const struct workspace *workspace, const struct turn *turn)
{
    const struct buffers *const given = &workspace->given;
    uint8_t expected[bytes_of_state];
    memcpy(expected, given->of[role_state].bytes, bytes_of_state);
    expected[state_stored] = (uint8_t)(turn->due & ~((unsigned)turn->serves << turn->sheet));
    if (turn->serves)
        expected[state_number] = expected[state_sheet] = (uint8_t)turn->sheet;
    if (memcmp(workspace->ticked.of[role_state].bytes, expected, bytes_of_state) != 0)
        report_mismatch(harness, call_tick, given, "K9: other marks, number or sheet than by ring order");
}

/* ---- What is written ---- */

static bool same_in_part(const struct buffer *first, const struct buffer *second, struct part part)
{
    return memcmp(first->bytes + part.start, second->bytes + part.start, part.length) == 0;
}

static bool same_outside_part(const struct buffer *first, const struct buffer *second, struct part part)
{
    const struct part before = {0, part.start};
    const struct part behind = {part.start + part.length, first->length - part.start - part.length};
    return same_in_part(first, second, before) && same_in_part(first, second, behind);
}

/* Only the parts of the sheet that is served and accepted. */
static void demand_own_parts(struct harness *harness, const struct workspace *workspace, const struct turn *turn, bool accepted)
{
    static const enum role written[] = {role_memory, role_output};
    const struct buffers *const given = &workspace->given;
    for (unsigned index = 0; index < 2; index++) {
        const enum role role = written[index];
        const struct part part = accepted ? part_of(&workspace->board, role, turn->sheet) : (struct part){0, 0};
        if (!same_outside_part(&given->of[role], &workspace->ticked.of[role], part))
            report_mismatch(harness, call_tick, given, "K9: bytes written outside the parts of the sheet served");
    }
}

static void demand_tick(struct harness *harness, const struct workspace *workspace, const struct turn *turn, uint32_t answer)
{
    const uint32_t refused = answer / first_refusal;
    if (refused != 0 && refused != refused_unknown)
        report_mismatch(harness, call_tick, &workspace->given, "a sound board with valid memory and rows is refused");
    if ((answer != 0) != turn->serves)
        report_mismatch(harness, call_tick, &workspace->given, "K9: one is due and none served, or one is served and none due");
    demand_state(harness, workspace, turn);
    demand_own_parts(harness, workspace, turn, turn->serves && refused == 0);
}

/* ---- How long a due sheet waits ---- */

/* By the due marks that were given and the sheets that were served: no mark may be lost on the way. */
static void demand_service(struct harness *harness, const struct workspace *workspace, struct sequence *sequence, uint32_t answer)
{
    const unsigned sheets = workspace->board.count;
    const unsigned marks = byte_of_state(&workspace->given, state_due) | byte_of_state(&workspace->given, state_stored);
    unsigned long *const count = harness->statistics.count;
    for (unsigned sheet = 0; sheet < sheets; sheet++) {
        unsigned *const waiting = &sequence->waiting[sheet];
        *waiting += *waiting != 0 || is_marked(marks, sheet);
        if (*waiting > count[counter_ticks_longest_wait])
            count[counter_ticks_longest_wait] = *waiting;
        if (answer != 0 && byte_of_state(&workspace->ticked, state_sheet) == sheet) {
            count[counter_ticks_waited] += *waiting > 1;
            count[counter_ticks_full_wait] += *waiting > 1 && *waiting == sheets;
            *waiting = 0;
        } else if (*waiting == sheets) {
            report_mismatch(harness, call_tick, &workspace->given, "K9: a due sheet waits for more ticks than there are sheets");
        }
    }
}

/* ---- What the other sheets hold ---- */

static void keep_part(const struct workspace *workspace, enum role role, unsigned sheet, struct buffer *buffer)
{
    const struct part part = part_of(&workspace->board, role, sheet);
    memcpy(buffer->bytes + part.start, workspace->given.of[role].bytes + part.start, part.length);
}

/* The same tick with another valid memory and other inputs but for the sheet that is served, which must give the same. */
static void demand_alone(struct harness *harness, struct workspace *workspace, const struct turn *turn, uint32_t answer)
{
    const struct board *const board = &workspace->board;
    const struct buffers *const ticked = &workspace->ticked;
    struct buffers *const tried = &workspace->tried;
    const struct part memory = part_of(board, role_memory, turn->sheet);
    const struct part output = part_of(board, role_output, turn->sheet);
    copy_buffers(tried, &workspace->given);
    fill_memories(&harness->random, board, &tried->of[role_memory]);
    fill_inputs(&harness->random, board, &tried->of[role_input]);
    keep_part(workspace, role_memory, turn->sheet, &tried->of[role_memory]);
    keep_part(workspace, role_input, turn->sheet, &tried->of[role_input]);
    const bool same_answer = compare_call(harness, call_tick, tried, tried) == answer;
    if (!same_answer || !same_bytes(&tried->of[role_state], &ticked->of[role_state]) ||
        !same_in_part(&tried->of[role_memory], &ticked->of[role_memory], memory) ||
        !same_in_part(&tried->of[role_output], &ticked->of[role_output], output))
        report_mismatch(harness, call_tick, &workspace->given, "K9: what another sheet holds alters what a sheet gives");
    harness->statistics.count[counter_ticks_alone]++;
}

/* ---- What the sheet gives by itself ---- */

static void take_part(const struct workspace *workspace, enum role role, unsigned sheet, struct buffer *buffer)
{
    const struct part part = part_of(&workspace->board, role, sheet);
    buffer->length = part.length;
    memcpy(buffer->bytes, workspace->given.of[role].bytes + part.start, part.length);
}

static bool is_part(const struct workspace *workspace, enum role role, unsigned sheet)
{
    const struct part part = part_of(&workspace->board, role, sheet);
    const uint8_t *const bytes = workspace->ticked.of[role].bytes + part.start;
    return memcmp(workspace->tried.of[role].bytes, bytes, part.length) == 0;
}

/* The start where it is restarted, and the instant in rounds on its own parts: refused 20 or accepted, they must leave what the tick left. */
static void demand_rounds(struct harness *harness, struct workspace *workspace, const struct turn *turn, uint32_t answer)
{
    struct buffers *const tried = &workspace->tried;
    for (unsigned role = 0; role < roles; role++)
        tried->of[role].length = 0;
    copy_buffer(&tried->of[role_sheet], &workspace->board.bytes[turn->sheet]);
    for (unsigned role = role_memory; role <= role_output; role++)
        take_part(workspace, role, turn->sheet, &tried->of[role]);
    if (turn->restarts)
        (void)compare_call(harness, call_start, tried, tried);
    const bool same_answer = compare_call(harness, call_rounds, tried, tried) == answer;
    const bool same_parts = is_part(workspace, role_memory, turn->sheet) && is_part(workspace, role_output, turn->sheet);
    if (!same_answer || (answer < first_refusal && !same_parts))
        report_mismatch(harness, call_tick, &workspace->given, "K9: the sheet served gives something else by itself");
    harness->statistics.count[counter_ticks_by_rounds]++;
}

/* ---- What was met ---- */

/* Whether the memory of a sheet is away from its start, in any cell or in a kept one. */
static bool is_away(const struct workspace *workspace, unsigned sheet, bool kept_alone)
{
    const struct board *const board = &workspace->board;
    const struct part part = part_of(board, role_memory, sheet);
    const uint8_t *const memory = workspace->given.of[role_memory].bytes + part.start;
    uint8_t start[bytes_of_cell * most_cells];
    bool away = false;
    (void)evaluator_start(board->bytes[sheet].bytes, board->bytes[sheet].length, start, part.length);
    for (unsigned cell = 0; cell < board->sheets[sheet].cells; cell++) {
        const size_t place = (size_t)bytes_of_cell * cell;
        const bool counts = !kept_alone || board->sheets[sheet].cell_kind[cell] == kind_last;
        away = away || (counts && memcmp(start + place, memory + place, bytes_of_cell) != 0);
    }
    return away;
}

static void note_served(unsigned long *count, const struct workspace *workspace, const struct turn *turn, struct sequence *sequence,
                        bool unknown)
{
    const bool away = turn->restarts && is_away(workspace, turn->sheet, false);
    count[counter_ticks_served] += !unknown;
    count[counter_ticks_unknown] += unknown;
    count[counter_ticks_unknown_after_accepted] += unknown && sequence->accepted[turn->sheet];
    count[counter_ticks_unknown_restarted] += unknown && turn->restarts;
    count[counter_ticks_unknown_restarted_away] += unknown && away;
    count[counter_ticks_restarted] += !unknown && turn->restarts;
    count[counter_ticks_restarted_away] += !unknown && away;
    count[counter_ticks_restarted_kept_away] += !unknown && away && is_away(workspace, turn->sheet, true);
    count[counter_ticks_same_sheet] += turn->sheet == byte_of_state(&workspace->given, state_number);
    sequence->accepted[turn->sheet] = sequence->accepted[turn->sheet] || !unknown;
}

static void note_marks(unsigned long *count, const struct workspace *workspace, const struct turn *turn)
{
    const struct buffers *const given = &workspace->given;
    const unsigned due = byte_of_state(given, state_due);
    const unsigned restart = byte_of_state(given, state_restart);
    const unsigned stored = byte_of_state(given, state_stored);
    const bool no_sheet = byte_of_state(given, state_number) >= workspace->board.count;
    const unsigned served = (unsigned)turn->serves << turn->sheet;
    count[counter_ticks_none_due] += !turn->serves;
    count[counter_ticks_none_due_no_sheet] += !turn->serves && no_sheet;
    count[counter_ticks_no_sheet] += no_sheet;
    count[counter_ticks_restart_not_due] += (restart & turn->sheets & ~turn->due) != 0;
    count[counter_ticks_restart_not_served] += (restart & turn->due & ~served) != 0;
    count[counter_ticks_due_above] += (due & ~turn->sheets) != 0;
    count[counter_ticks_stored_above] += (stored & ~turn->sheets) != 0;
    count[counter_ticks_restart_above] += (restart & ~turn->sheets) != 0;
    count[counter_ticks_marked_again] += (due & stored & turn->sheets) != 0;
}

/* ---- The sequence ---- */

/* Marks above the count come too. */
static unsigned random_marks(struct random *random, unsigned share)
{
    if (!percent(random, share))
        return 0;
    const unsigned one = 1u << below(random, most_sheets);
    const unsigned other = 1u << below(random, most_sheets);
    switch (below(random, 4)) {
    case 0:
        return one | other;
    case 1:
        return below(random, 256);
    default:
        return one;
    }
}

static void start_memories(const struct board *board, struct buffer *memory)
{
    memory->length = length_of_parts(board, role_memory);
    for (unsigned sheet = 0; sheet < board->count; sheet++) {
        const struct part part = part_of(board, role_memory, sheet);
        (void)evaluator_start(board->bytes[sheet].bytes, board->bytes[sheet].length, memory->bytes + part.start, part.length);
    }
}

/* A board with its memory, stored marks of any kind, and a number that may name no sheet. */
static void begin_sequence(struct harness *harness, struct workspace *workspace)
{
    struct random *const random = &harness->random;
    struct buffers *const given = &workspace->given;
    generate_board(random, &workspace->board);
    write_board(&workspace->board, &given->of[role_board]);
    given->of[role_sheet].length = given->of[role_schedule].length = 0;
    if (percent(random, 50))
        start_memories(&workspace->board, &given->of[role_memory]);
    else
        fill_memories(random, &workspace->board, &given->of[role_memory]);
    fill_with_rubbish(random, &given->of[role_state], bytes_of_state);
    given->of[role_state].bytes[state_stored] = (uint8_t)random_marks(random, 60);
    given->of[role_state].bytes[state_number] = (uint8_t)(percent(random, 30) ? new_board : below(random, most_sheets + 2));
    harness->statistics.count[counter_boards_of_1 + workspace->board.count - 1]++;
}

/* Memory, stored marks and number are there already. */
static void prepare_tick(struct harness *harness, struct workspace *workspace, unsigned busy)
{
    struct random *const random = &harness->random;
    struct buffers *const given = &workspace->given;
    uint8_t *const state = given->of[role_state].bytes;
    fill_inputs(random, &workspace->board, &given->of[role_input]);
    fill_with_rubbish(random, &given->of[role_output], length_of_parts(&workspace->board, role_output));
    state[state_due] = (uint8_t)random_marks(random, busy);
    state[state_restart] = (uint8_t)random_marks(random, 40);
    for (unsigned index = state_sheet; index < bytes_of_state; index++)
        state[index] = (uint8_t)below(random, 256);
}

static void compare_tick(struct harness *harness, struct workspace *workspace, struct sequence *sequence)
{
    struct buffers *const given = &workspace->given;
    const struct buffers *const ticked = &workspace->ticked;
    unsigned long *const count = harness->statistics.count;
    const struct turn turn = turn_of(&workspace->board, given);
    const uint32_t answer = compare_call(harness, call_tick, given, &workspace->ticked);
    demand_tick(harness, workspace, &turn, answer);
    demand_service(harness, workspace, sequence, answer);
    note_marks(count, workspace, &turn);
    if (turn.serves)
        note_served(count, workspace, &turn, sequence, answer >= first_refusal);
    if (turn.serves && percent(&harness->random, 20))
        demand_alone(harness, workspace, &turn, answer);
    if (turn.serves && percent(&harness->random, 20))
        demand_rounds(harness, workspace, &turn, answer);
    copy_buffer(&given->of[role_memory], &ticked->of[role_memory]);
    copy_buffer(&given->of[role_state], &ticked->of[role_state]);
}

void compare_board(struct harness *harness, struct workspace *workspace)
{
    struct random *const random = &harness->random;
    if (harness->case_number % cases_for_board != 0)
        return;
    begin_sequence(harness, workspace);
    struct sequence sequence = {.busy = between(random, 10, 100)};
    for (unsigned left = between(random, fewest_ticks, most_ticks); left != 0; left--) {
        prepare_tick(harness, workspace, sequence.busy);
        if (percent(random, 25))
            compare_damaged_tick(harness, workspace);
        compare_tick(harness, workspace, &sequence);
    }
}
