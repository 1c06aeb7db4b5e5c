/* What a tick of a board serves, stores and leaves (document 02, K9): the ring, marks and number, parts of memory and rows, restarts, sheets
 * refused 20, and states of another length. Rests on the words of boards and on sheets of its own.
 */
#include "cases/boards.h"

/* ---- Rings ---- */

/* Three sheets and eight, each with one output, a constant: 10 to 12, and 20 to 27. */
#define GIVES(number) ON_BOARD(0, 1, 1, 1, 0, CONSTANT(number))
#define RING_OF_3 3, GIVES(10), GIVES(11), GIVES(12)
#define RING_OF_8 8, GIVES(20), GIVES(21), GIVES(22), GIVES(23), GIVES(24), GIVES(25), GIVES(26), GIVES(27)

/* The output row where a sheet of a ring is served. */
#define OUTPUTS_0_OF_3 NUMBER(10), TWICE(UNWRITTEN)
#define OUTPUTS_1_OF_3 UNWRITTEN, NUMBER(11), UNWRITTEN
#define OUTPUTS_2_OF_3 TWICE(UNWRITTEN), NUMBER(12)
#define OUTPUTS_0_OF_8 NUMBER(20), TIMES_7(UNWRITTEN)
#define OUTPUTS_1_OF_8 UNWRITTEN, NUMBER(21), TIMES_4(UNWRITTEN), TWICE(UNWRITTEN)
#define OUTPUTS_2_OF_8 TWICE(UNWRITTEN), NUMBER(22), TIMES_4(UNWRITTEN), UNWRITTEN
#define OUTPUTS_3_OF_8 TWICE(UNWRITTEN), UNWRITTEN, NUMBER(23), TIMES_4(UNWRITTEN)
#define OUTPUTS_4_OF_8 TIMES_4(UNWRITTEN), NUMBER(24), TWICE(UNWRITTEN), UNWRITTEN
#define OUTPUTS_5_OF_8 TIMES_4(UNWRITTEN), UNWRITTEN, NUMBER(25), TWICE(UNWRITTEN)
#define OUTPUTS_6_OF_8 TIMES_4(UNWRITTEN), TWICE(UNWRITTEN), NUMBER(26), UNWRITTEN
#define OUTPUTS_7_OF_8 TIMES_7(UNWRITTEN), NUMBER(27)

/* With these due and stored marks behind the sheet of this number, a sheet of so many is served and these marks are left. */
#define RING(count, due, stored, number, sheet, left)                                                                                 \
    {.name = "ring of " #count ": due " #due ", stored " #stored ", number " #number, .call = call_tick,                              \
     .board = BYTES(RING_OF_##count), .state = MARKS(due, 0, stored, number), .output_length = 4 * count, .answer = 2,                \
     .state_after = SERVED(due, 0, left, sheet), .output_after = BYTES(OUTPUTS_##sheet##_OF_##count)}
#define IDLE_RING(count, due, restart, stored, number)                                                                                \
    {.name = "ring of " #count ": none due, due " #due ", restart " #restart ", stored " #stored ", number " #number,                 \
     .call = call_tick, .board = BYTES(RING_OF_##count), .state = MARKS(due, restart, stored, number), .output_length = 4 * count,    \
     .state_after = IDLE(due, restart, number)}

/* ---- The meter ---- */

/* A tick of A, F and G whose memory, A's, F's and G's, was this, and each sheet's input and output. */
#define METER_MEMORY(a_0, a_1, f, g) BYTES(CELL(1, a_0), CELL(1, a_1), CELL(1, f), CELL(1, g))
#define METER_INPUTS(pulse, boundary, condition) BYTES(NUMBER(pulse), NUMBER(boundary), NUMBER(condition))
#define OF_A(first, second) NUMBER(first), NUMBER(second), TWICE(UNWRITTEN)
#define OF_F(number) TWICE(UNWRITTEN), NUMBER(number), UNWRITTEN
#define OF_G(number) TWICE(UNWRITTEN), UNWRITTEN, NUMBER(number)

/* ---- Restarts ---- */

/* A cell of every kind, behind F. Wire 0, kept: its last + 1; wire 1: pre 5 (wire 1) + 1; wire 2: 3 fby (wire 2 + 1); wire 3: a machine that
 * leaves its state at every instant, with bodies 1 and 2; wire 4, kept: not its last; wire 5: not pre true (wire 5). */
#define EVERY_CELL                                                                                                                    \
    0, 6, 3, 1, 1, 1, 2, 0, 6, 0, 1, 2, 3, 4, 5, 8, LAST(0), CONSTANT(1), 8, 16, NUMBER(5), WIRE(1), CONSTANT(1), 17, CONSTANT(3), 8, \
        WIRE(2), CONSTANT(1), 19, ALWAYS, ALWAYS, CONSTANT(1), CONSTANT(2), 4, LAST(4), 4, 15, 1, WIRE(5)
#define F_AND_EVERY_CELL BYTES(2, ON_BOARD(SHEET_F), ON_BOARD(EVERY_CELL))

/* Cells that rest, before F. Wire 0: present the input do pre 4 (wire 0) + 1 else 7 fby 8; wire 1: a machine that leaves state 0 where the
 * input holds, with bodies pre 10 (11) and pre 20 (21). */
#define RESTING                                                                                                                       \
    1, 0, 2, 1, 1, 2, 0, 1, 13, INPUT(0), 8, 16, NUMBER(4), WIRE(0), CONSTANT(1), 17, CONSTANT(7), CONSTANT(8), 19, INPUT(0), NEVER,  \
        16, NUMBER(10), CONSTANT(11), 16, NUMBER(20), CONSTANT(21)
#define RESTING_AND_F BYTES(2, ON_BOARD(RESTING), ON_BOARD(SHEET_F))
#define RESTING_AWAY BYTES(CELL(1, 40), CELL(1, 41), CELL(1, 1), CELL(1, 42), CELL(1, 43), CELL(1, 9))

/* ---- Loops ---- */

/* Between F and G. Wire 0: wire 1 + 1; wire 1: present the input do itself else pre 5 (wire 0). The input is the board's first, and G's its
 * second; cells 0 to 2 are one of each. */
#define LOOP_BY_INPUT 1, 0, 2, 1, 1, 1, 0, 8, WIRE(1), CONSTANT(1), 13, INPUT(0), WIRE(1), 16, NUMBER(5), WIRE(0)
#define LOOP_BOARD BYTES(3, ON_BOARD(SHEET_F), ON_BOARD(LOOP_BY_INPUT), ON_BOARD(SHEET_G))
#define LOOP_MEMORY(f, loop, g) BYTES(CELL(1, f), CELL(1, loop), CELL(1, g))

/* Behind F: wire 0 is wire 0 fby 7, a loop when not started. Wire 0 is present pre false (true) do itself else 6, a loop when started on. And
 * wire 0 is (wire 0 fby 7) + wire 1, wire 1 is itself: wire 0 waits for itself too when not started. */
#define LOOP_AT_START BYTES(2, ON_BOARD(SHEET_F), ON_BOARD(0, 1, 1, 1, 0, 17, WIRE(0), CONSTANT(7)))
#define LOOP_LATER BYTES(2, ON_BOARD(SHEET_F), ON_BOARD(0, 1, 1, 1, 0, 13, 15, 0, ALWAYS, WIRE(0), CONSTANT(6)))
#define LOOP_OF_WIRE_1 BYTES(2, ON_BOARD(SHEET_F), ON_BOARD(WIRES_2, 8, 17, WIRE(0), CONSTANT(7), WIRE(1), WIRE(1)))

/* ---- States of another length ---- */

#define SEVEN_BYTES BYTES(7, 0, 0, 0, 0, 0, 0)
#define NINE_BYTES BYTES(7, 0, 0, 0, 0, 0, 0, 0, 0)

static const struct row rows[] = {
    RING(3, 1, 0, 0, 0, 0),
    RING(3, 2, 0, 0, 1, 0),
    RING(3, 3, 0, 0, 1, 1),
    RING(3, 4, 0, 0, 2, 0),
    RING(3, 5, 0, 0, 2, 1),
    RING(3, 6, 0, 0, 1, 4),
    RING(3, 7, 0, 0, 1, 5),
    RING(3, 1, 0, 1, 0, 0),
    RING(3, 2, 0, 1, 1, 0),
    RING(3, 3, 0, 1, 0, 2),
    RING(3, 4, 0, 1, 2, 0),
    RING(3, 5, 0, 1, 2, 1),
    RING(3, 6, 0, 1, 2, 2),
    RING(3, 7, 0, 1, 2, 3),
    RING(3, 1, 0, 2, 0, 0),
    RING(3, 2, 0, 2, 1, 0),
    RING(3, 3, 0, 2, 0, 2),
    RING(3, 4, 0, 2, 2, 0),
    RING(3, 5, 0, 2, 0, 4),
    RING(3, 6, 0, 2, 1, 4),
    RING(3, 7, 0, 2, 0, 6),

    RING(3, 7, 0, 3, 0, 6),
    RING(3, 6, 0, 3, 1, 4),
    RING(3, 4, 0, 3, 2, 0),
    RING(3, 7, 0, 4, 0, 6),
    RING(3, 7, 0, 5, 0, 6),
    RING(3, 7, 0, 7, 0, 6),
    RING(3, 7, 0, 8, 0, 6),
    RING(3, 7, 0, 64, 0, 6),
    RING(3, 7, 0, 128, 0, 6),
    RING(3, 7, 0, 255, 0, 6),
    RING(3, 6, 0, 255, 1, 4),
    RING(3, 5, 0, 255, 0, 4),
    RING(3, 4, 0, 255, 2, 0),

    RING(3, 0, 1, 0, 0, 0),
    RING(3, 0, 7, 1, 2, 3),
    RING(3, 2, 4, 0, 1, 4),
    RING(3, 4, 2, 0, 1, 4),
    RING(3, 1, 4, 1, 2, 1),
    RING(3, 1, 1, 0, 0, 0),
    RING(3, 2, 2, 2, 1, 0),
    RING(3, 7, 7, 2, 0, 6),

    RING(3, 255, 0, 2, 0, 6),
    RING(3, 0, 255, 2, 0, 6),
    RING(3, 255, 255, 0, 1, 5),
    RING(3, 9, 0, 0, 0, 0),
    RING(3, 8, 1, 0, 0, 0),
    RING(3, 1, 248, 0, 0, 0),
    RING(3, 8, 18, 2, 1, 0),
    IDLE_RING(3, 0, 0, 0, 0),
    IDLE_RING(3, 0, 0, 0, 1),
    IDLE_RING(3, 0, 0, 0, 2),
    IDLE_RING(3, 0, 0, 0, 3),
    IDLE_RING(3, 0, 0, 0, 255),
    IDLE_RING(3, 0, 0, 248, 1),
    IDLE_RING(3, 248, 0, 0, 1),
    IDLE_RING(3, 8, 0, 128, 77),
    IDLE_RING(3, 0, 7, 0, 1),
    IDLE_RING(3, 0, 255, 8, 200),

    RING(8, 255, 0, 255, 0, 254),
    RING(8, 0, 254, 0, 1, 252),
    RING(8, 0, 252, 1, 2, 248),
    RING(8, 0, 248, 2, 3, 240),
    RING(8, 0, 240, 3, 4, 224),
    RING(8, 0, 224, 4, 5, 192),
    RING(8, 0, 192, 5, 6, 128),
    RING(8, 0, 128, 6, 7, 0),
    RING(8, 255, 255, 7, 0, 254),
    RING(8, 255, 0, 8, 0, 254),
    RING(8, 255, 0, 3, 4, 239),
    RING(8, 15, 0, 3, 0, 14),
    RING(8, 128, 0, 7, 7, 0),
    RING(8, 129, 0, 7, 0, 128),
    RING(8, 129, 0, 6, 7, 1),
    RING(8, 128, 64, 6, 7, 64),
    RING(8, 0, 72, 3, 6, 8),
    IDLE_RING(8, 0, 0, 0, 7),
    IDLE_RING(8, 0, 255, 0, 8),

    TICK("meter: A", BYTES(METER), MARKS(1, 0, 0, 255), METER_MEMORY(7, 6, 9, 20), METER_INPUTS(1, 0, 1), 2, SERVED(1, 0, 0, 0),
         METER_MEMORY(8, 8, 9, 20), OF_A(8, 6)),
    TICK("meter: A at a boundary", BYTES(METER), MARKS(0, 0, 1, 0), METER_MEMORY(7, 6, 9, 20), METER_INPUTS(1, 1, 0), 2,
         SERVED(0, 0, 0, 0), METER_MEMORY(1, 1, 9, 20), OF_A(1, 6)),
    TICK("meter: F", BYTES(METER), MARKS(2, 0, 0, 0), METER_MEMORY(7, 6, 9, 20), METER_INPUTS(1, 0, 1), 2, SERVED(2, 0, 0, 1),
         METER_MEMORY(7, 6, 10, 20), OF_F(9)),
    TICK("meter: G", BYTES(METER), MARKS(4, 0, 0, 0), METER_MEMORY(7, 6, 9, 30), METER_INPUTS(0, 0, 1), 2, SERVED(4, 0, 0, 2),
         METER_MEMORY(7, 6, 9, 20), OF_G(30)),
    TICK("meter: G with its input false", BYTES(METER), MARKS(4, 0, 0, 0), METER_MEMORY(7, 6, 9, 30), METER_INPUTS(1, 1, 0), 2,
         SERVED(4, 0, 0, 2), METER_MEMORY(7, 6, 9, 30), OF_G(0)),
    TICK("meter: G with the other inputs exchanged", BYTES(METER), MARKS(4, 0, 0, 0), METER_MEMORY(0, 200, 100, 30),
         METER_INPUTS(0, 1, 0), 2, SERVED(4, 0, 0, 2), METER_MEMORY(0, 200, 100, 30), OF_G(0)),
    TICK("meter: not started", BYTES(METER), MARKS(2, 0, 0, 0), BYTES(CELL(1, 0), CELL(1, 0), CELL(0, 0), CELL(0, 0)),
         METER_INPUTS(1, 0, 1), 2, SERVED(2, 0, 0, 1), BYTES(CELL(1, 0), CELL(1, 0), CELL(1, 6), CELL(0, 0)), OF_F(5)),
    NO_TICK("meter: none due", BYTES(METER), MARKS(0, 0, 0, 9), IDLE(0, 0, 9), METER_MEMORY(7, 6, 9, 20), METER_INPUTS(1, 1, 1), 16),
    NO_TICK("meter: only marks above the count", BYTES(METER), MARKS(8, 0, 248, 2), IDLE(8, 0, 2), METER_MEMORY(7, 6, 9, 20),
            METER_INPUTS(1, 1, 1), 16),
    TICK("meter: marked twice", BYTES(METER), MARKS(2, 0, 2, 1), METER_MEMORY(7, 6, 9, 20), METER_INPUTS(0, 0, 0), 2, SERVED(2, 0, 0, 1),
         METER_MEMORY(7, 6, 10, 20), OF_F(9)),
    NO_TICK("meter: marked twice, the tick behind", BYTES(METER), MARKS(0, 0, 0, 1), IDLE(0, 0, 1), METER_MEMORY(7, 6, 10, 20),
            METER_INPUTS(0, 0, 0), 16),
    TICK("a board of one sheet", BYTES(1, ON_BOARD(SHEET_F)), MARKS(255, 0, 254, 0), BYTES(CELL(1, 9)), NOTHING, 2, SERVED(255, 0, 0, 0),
         BYTES(CELL(1, 10)), NUMBER(9)),
    NO_TICK("a board of one sheet, not due", BYTES(1, ON_BOARD(SHEET_F)), MARKS(254, 255, 254, 255), IDLE(254, 255, 255),
            BYTES(CELL(1, 9)), NOTHING, 4),
    TICK("the same sheet twice: the first", BYTES(2, ON_BOARD(SHEET_F), ON_BOARD(SHEET_F)), MARKS(3, 0, 0, 1),
         BYTES(CELL(1, 9), CELL(1, 70)), NOTHING, 2, SERVED(3, 0, 2, 0), BYTES(CELL(1, 10), CELL(1, 70)), NUMBER(9), UNWRITTEN),
    TICK("the same sheet twice: the second", BYTES(2, ON_BOARD(SHEET_F), ON_BOARD(SHEET_F)), MARKS(0, 0, 2, 0),
         BYTES(CELL(1, 10), CELL(1, 70)), NOTHING, 2, SERVED(0, 0, 0, 1), BYTES(CELL(1, 10), CELL(1, 71)), UNWRITTEN, NUMBER(70)),
    TICK("as many rounds as the sheet served has", BYTES(2, ON_BOARD(SHEET_F), ON_BOARD(SHEET_E)), MARKS(2, 0, 0, 0), BYTES(CELL(1, 9)),
         NOTHING, 4, SERVED(2, 0, 0, 1), BYTES(CELL(1, 9)), UNWRITTEN, NUMBER(5), NUMBER(5), NUMBER(5)),

    TICK("restart: F", BYTES(METER), MARKS(2, 2, 0, 0), METER_MEMORY(7, 6, 9, 20), METER_INPUTS(1, 0, 1), 2, SERVED(2, 2, 0, 1),
         METER_MEMORY(7, 6, 6, 20), OF_F(5)),
    TICK("restart: A", BYTES(METER), MARKS(1, 1, 0, 0), METER_MEMORY(7, 6, 9, 20), METER_INPUTS(1, 0, 1), 2, SERVED(1, 1, 0, 0),
         METER_MEMORY(1, 1, 9, 20), OF_A(1, 0)),
    TICK("restart: G", BYTES(METER), MARKS(4, 4, 0, 0), METER_MEMORY(7, 6, 9, 30), METER_INPUTS(1, 0, 1), 2, SERVED(4, 4, 0, 2),
         METER_MEMORY(7, 6, 9, 20), OF_G(10)),
    TICK("restart: G, and its cell rests", BYTES(METER), MARKS(4, 4, 0, 0), METER_MEMORY(7, 6, 9, 30), METER_INPUTS(1, 0, 0), 2,
         SERVED(4, 4, 0, 2), BYTES(CELL(1, 7), CELL(1, 6), CELL(1, 9), CELL(0, 0)), OF_G(0)),
    TICK("restart: marks of all", BYTES(METER), MARKS(2, 255, 0, 0), METER_MEMORY(7, 6, 9, 20), METER_INPUTS(1, 0, 1), 2,
         SERVED(2, 255, 0, 1), METER_MEMORY(7, 6, 6, 20), OF_F(5)),
    TICK("restart: marks of all others", BYTES(METER), MARKS(2, 253, 0, 0), METER_MEMORY(7, 6, 9, 20), METER_INPUTS(1, 0, 1), 2,
         SERVED(2, 253, 0, 1), METER_MEMORY(7, 6, 10, 20), OF_F(9)),
    TICK("restart: a stored mark", BYTES(METER), MARKS(0, 2, 2, 0), METER_MEMORY(7, 6, 9, 20), METER_INPUTS(1, 0, 1), 2,
         SERVED(0, 2, 0, 1), METER_MEMORY(7, 6, 6, 20), OF_F(5)),
    TICK("restart: of a due sheet that is not served", BYTES(METER), MARKS(3, 2, 0, 2), METER_MEMORY(7, 6, 9, 20), METER_INPUTS(1, 0, 1),
         2, SERVED(3, 2, 2, 0), METER_MEMORY(8, 8, 9, 20), OF_A(8, 6)),
    TICK("restart: not stored for the tick behind", BYTES(METER), MARKS(0, 0, 2, 0), METER_MEMORY(8, 8, 9, 20), METER_INPUTS(1, 0, 1), 2,
         SERVED(0, 0, 0, 1), METER_MEMORY(8, 8, 10, 20), OF_F(9)),
    NO_TICK("restart: without due", BYTES(METER), MARKS(0, 7, 0, 0), IDLE(0, 7, 0), METER_MEMORY(7, 6, 9, 20), METER_INPUTS(1, 0, 1), 16),
    TICK("restart: before anything", BYTES(METER), MARKS(2, 2, 0, 255), BYTES(CELL(1, 0), CELL(1, 0), CELL(0, 0), CELL(0, 0)),
         METER_INPUTS(0, 0, 0), 2, SERVED(2, 2, 0, 1), BYTES(CELL(1, 0), CELL(1, 0), CELL(1, 6), CELL(0, 0)), OF_F(5)),
    TICK("restart: a sheet without cells", BYTES(RING_OF_3), MARKS(2, 2, 0, 0), NOTHING, NOTHING, 2, SERVED(2, 2, 0, 1), NOTHING,
         OUTPUTS_1_OF_3),
    TICK("every cell: runs on", F_AND_EVERY_CELL, MARKS(2, 1, 0, 1),
         BYTES(CELL(1, 9), CELL(1, 40), CELL(1, 50), CELL(1, 60), CELL(1, 1), CELL(1, 1), CELL(1, 0)), NOTHING, 2, SERVED(2, 1, 0, 1),
         BYTES(CELL(1, 9), CELL(1, 41), CELL(1, 51), CELL(1, 61), CELL(1, 0), CELL(1, 0), CELL(1, 1)), UNWRITTEN, NUMBER(41), NUMBER(51),
         NUMBER(60), NUMBER(1), NUMBER(0), NUMBER(1)),
    TICK("every cell: restarted, the kept ones too", F_AND_EVERY_CELL, MARKS(2, 2, 0, 1),
         BYTES(CELL(1, 9), CELL(1, 40), CELL(1, 50), CELL(1, 60), CELL(1, 1), CELL(1, 1), CELL(1, 0)), NOTHING, 2, SERVED(2, 2, 0, 1),
         BYTES(CELL(1, 9), CELL(1, 1), CELL(1, 6), CELL(1, 4), CELL(1, 1), CELL(1, 1), CELL(1, 0)), UNWRITTEN, NUMBER(1), NUMBER(6),
         NUMBER(3), NUMBER(2), NUMBER(1), NUMBER(0)),
    TICK("resting cells: run on", RESTING_AND_F, MARKS(1, 0, 0, 1), RESTING_AWAY, BYTES(NUMBER(0)), 2, SERVED(1, 0, 0, 0),
         BYTES(CELL(1, 40), CELL(1, 8), CELL(1, 1), CELL(1, 42), CELL(1, 21), CELL(1, 9)), NUMBER(41), NUMBER(43), UNWRITTEN),
    TICK("resting cells: restarted, the input false", RESTING_AND_F, MARKS(1, 1, 0, 1), RESTING_AWAY, BYTES(NUMBER(0)), 2,
         SERVED(1, 1, 0, 0), BYTES(CELL(1, 4), CELL(1, 8), CELL(1, 0), CELL(1, 11), CELL(1, 20), CELL(1, 9)), NUMBER(7), NUMBER(10),
         UNWRITTEN),
    TICK("resting cells: restarted, the input true", RESTING_AND_F, MARKS(1, 1, 0, 1), RESTING_AWAY, BYTES(NUMBER(1)), 2,
         SERVED(1, 1, 0, 0), BYTES(CELL(1, 5), CELL(0, 0), CELL(1, 1), CELL(1, 10), CELL(1, 21), CELL(1, 9)), NUMBER(5), NUMBER(20),
         UNWRITTEN),

    TICK_UNKNOWN("20: at wire 1 of its sheet", 1, LOOP_BOARD, MARKS(2, 0, 0, 255), SERVED(2, 0, 0, 1), LOOP_MEMORY(9, 30, 20),
                 BYTES(NUMBER(1), NUMBER(0)), 12),
    TICK_UNKNOWN("20: the other marks stay stored", 1, LOOP_BOARD, MARKS(7, 0, 0, 0), SERVED(7, 0, 5, 1), LOOP_MEMORY(9, 30, 20),
                 BYTES(NUMBER(1), NUMBER(1)), 12),
    TICK_UNKNOWN("20: marks above the count are dropped", 1, LOOP_BOARD, MARKS(255, 0, 255, 0), SERVED(255, 0, 5, 1),
                 LOOP_MEMORY(9, 30, 20), BYTES(NUMBER(1), NUMBER(1)), 12),
    TICK_UNKNOWN("20: marked twice", 1, LOOP_BOARD, MARKS(2, 0, 2, 1), SERVED(2, 0, 0, 1), LOOP_MEMORY(9, 30, 20),
                 BYTES(NUMBER(1), NUMBER(1)), 12),
    NO_TICK("20: the tick behind has none due", LOOP_BOARD, MARKS(0, 0, 0, 1), IDLE(0, 0, 1), LOOP_MEMORY(9, 30, 20),
            BYTES(NUMBER(1), NUMBER(1)), 12),
    TICK("20: the tick behind serves the next", LOOP_BOARD, MARKS(0, 0, 5, 1), LOOP_MEMORY(9, 30, 33), BYTES(NUMBER(1), NUMBER(1)), 2,
         SERVED(0, 0, 1, 2), LOOP_MEMORY(9, 30, 20), TWICE(UNWRITTEN), NUMBER(33)),
    TICK("20: no more when the input is false", LOOP_BOARD, MARKS(2, 0, 0, 1), LOOP_MEMORY(9, 30, 20), BYTES(NUMBER(0), NUMBER(1)), 3,
         SERVED(2, 0, 0, 1), LOOP_MEMORY(9, 31, 20), UNWRITTEN, NUMBER(31), UNWRITTEN),
    TICK_UNKNOWN("20: under a restart the old memory stays", 1, LOOP_BOARD, MARKS(2, 2, 0, 0), SERVED(2, 2, 0, 1),
                 LOOP_MEMORY(9, 30, 20), BYTES(NUMBER(1), NUMBER(1)), 12),
    TICK_UNKNOWN("20: under restarts of all", 1, LOOP_BOARD, MARKS(7, 7, 0, 0), SERVED(7, 7, 5, 1), LOOP_MEMORY(9, 30, 20),
                 BYTES(NUMBER(1), NUMBER(1)), 12),
    TICK("20: the restart mark is lost", LOOP_BOARD, MARKS(2, 0, 0, 1), LOOP_MEMORY(9, 30, 20), BYTES(NUMBER(0), NUMBER(0)), 3,
         SERVED(2, 0, 0, 1), LOOP_MEMORY(9, 31, 20), UNWRITTEN, NUMBER(31), UNWRITTEN),
    TICK("a restart beside a loop", LOOP_BOARD, MARKS(1, 1, 2, 2), LOOP_MEMORY(9, 30, 20), BYTES(NUMBER(1), NUMBER(0)), 2,
         SERVED(1, 1, 2, 0), LOOP_MEMORY(6, 30, 20), NUMBER(5), TWICE(UNWRITTEN)),
    TICK("a loop at the start: runs on", LOOP_AT_START, MARKS(2, 0, 0, 0), BYTES(CELL(1, 9), CELL(1, 30)), NOTHING, 2,
         SERVED(2, 0, 0, 1), BYTES(CELL(1, 9), CELL(1, 7)), UNWRITTEN, NUMBER(30)),
    TICK_UNKNOWN("a loop at the start: restarted", 0, LOOP_AT_START, MARKS(2, 2, 0, 0), SERVED(2, 2, 0, 1),
                 BYTES(CELL(1, 9), CELL(1, 30)), NOTHING, 8),
    TICK_UNKNOWN("a loop at the start: not started", 0, LOOP_AT_START, MARKS(2, 0, 0, 0), SERVED(2, 0, 0, 1),
                 BYTES(CELL(1, 9), CELL(0, 0)), NOTHING, 8),
    TICK_UNKNOWN("a loop later on: runs on", 0, LOOP_LATER, MARKS(2, 1, 0, 0), SERVED(2, 1, 0, 1), BYTES(CELL(1, 9), CELL(1, 1)), NOTHING,
                 8),
    TICK("a loop later on: restarted", LOOP_LATER, MARKS(2, 2, 0, 0), BYTES(CELL(1, 9), CELL(1, 1)), NOTHING, 2, SERVED(2, 2, 0, 1),
         BYTES(CELL(1, 9), CELL(1, 1)), UNWRITTEN, NUMBER(6)),
    TICK_UNKNOWN("the wire that waits: runs on", 1, LOOP_OF_WIRE_1, MARKS(2, 0, 0, 0), SERVED(2, 0, 0, 1), BYTES(CELL(1, 9), CELL(1, 30)),
                 NOTHING, 8),
    TICK_UNKNOWN("the wire that waits: restarted", 0, LOOP_OF_WIRE_1, MARKS(2, 2, 0, 0), SERVED(2, 2, 0, 1),
                 BYTES(CELL(1, 9), CELL(1, 30)), NOTHING, 8),

    NO_TICK("no state", BYTES(METER), NOTHING, NOTHING, METER_MEMORY(7, 6, 9, 20), METER_INPUTS(1, 0, 1), 16),
    NO_TICK("a state of 7 bytes", BYTES(METER), SEVEN_BYTES, SEVEN_BYTES, METER_MEMORY(7, 6, 9, 20), METER_INPUTS(1, 0, 1), 16),
    NO_TICK("a state of 9 bytes", BYTES(METER), NINE_BYTES, NINE_BYTES, METER_MEMORY(7, 6, 9, 20), METER_INPUTS(1, 0, 1), 16),
    NO_TICK("a state of 7 bytes and no board", NOTHING, SEVEN_BYTES, SEVEN_BYTES, METER_MEMORY(7, 6, 9, 20), NOTHING, 3),
    NO_TICK("a state of 9 bytes and other lengths", BYTES(METER), NINE_BYTES, NINE_BYTES, BYTES(1, 2, 3), NOTHING, 3),
};

const struct table cases_of_ticks = TABLE(rows);
