/* More words in which rows are written: boards of sheets, the state of a tick before and after, ticks and their refusals. Rests on the words
 * of the rows.
 */
#ifndef CASES_BOARDS_H
#define CASES_BOARDS_H

#include "cases/sheets.h"
#include "cases/ways.h"

/* A sheet as it stands in a board, behind its length of two bytes. */
#define ON_BOARD(...) LENGTH_OF(__VA_ARGS__) & 255, LENGTH_OF(__VA_ARGS__) >> 8, __VA_ARGS__

/* Tariff, display and relay: A, F and G, whose lengths stand at 1, 43 and 64; 91 bytes. Cells 0 and 1 are A's, 2 is F's and 3 is G's; inputs
 * 0 and 1 are A's and 2 is G's; outputs 0 and 1 are A's, 2 is F's and 3 is G's. */
#define METER 3, ON_BOARD(SHEET_A), ON_BOARD(SHEET_F), ON_BOARD(SHEET_G)

/* Four bytes of a row or a state that a tick does not write. */
#define UNWRITTEN TIMES_4(rubbish)

/* The state that a tick is given: due marks, restart marks, stored marks and the number of the sheet served last. And what it leaves where it
 * serves a sheet, and where none is due. */
#define MARKS(due, restart, stored, number) BYTES(due, restart, stored, number, UNWRITTEN)
#define SERVED(due, restart, stored, sheet) BYTES(due, restart, stored, sheet, sheet, rubbish, rubbish, rubbish)
#define IDLE(due, restart, number) MARKS(due, restart, 0, number)

/* A tick that serves a sheet in so many rounds. The output row comes last. */
#define TICK(title, on, marks, before, inputs, made, left, after, ...)                                                           \
    {.name = title, .call = call_tick, .board = on, .state = marks, .memory = before, .input = inputs,                           \
     .output_length = LENGTH_OF(__VA_ARGS__), .answer = made, .state_after = left, .memory_after = after,                        \
     .output_after = BYTES(__VA_ARGS__)}

/* A tick that answers 0 and writes neither memory nor output row, whose length comes last. */
#define NO_TICK(title, on, marks, left, before, inputs, length)                                                                  \
    {.name = title, .call = call_tick, .board = on, .state = marks, .memory = before, .input = inputs, .output_length = length,  \
     .state_after = left, .memory_after = before}

/* A tick that is refused before marks are stored, and one whose sheet is refused 20. */
#define TICK_REFUSED(title, number, at, on, marks, before, inputs, length)                                                       \
    {.name = title, .call = call_tick, .board = on, .state = marks, .memory = before, .input = inputs, .output_length = length,  \
     .refused = number, .place = at}
#define TICK_UNKNOWN(title, at, on, marks, left, before, inputs, length)                                                         \
    {.name = title, .call = call_tick, .board = on, .state = marks, .memory = before, .input = inputs, .output_length = length,  \
     .refused = refused_unknown, .place = at, .state_after = left}

#endif
