/* The calls under test as a table: their names and rules, the buffers they are given, and an implementation of them as functions, so
 * that a test runs the library and any other implementation by the same code. Rests on nothing; library.h and the implementations
 * rest on it.
 */
#ifndef CALLS_H
#define CALLS_H

#include <stdbool.h>
#include <stddef.h>
#include <stdint.h>

/* Those of one sheet come first; the tick is that of a board, and the join takes two sheets. */
enum call {
    call_check,
    call_start,
    call_preview,
    call_rounds,
    call_scheduled,
    call_make,
    calls_of_sheet,
    call_tick = calls_of_sheet,
    call_join,
    calls
};

enum role {
    role_sheet,
    role_memory,
    role_input,
    role_output,
    role_schedule,
    role_board,
    role_state,
    role_first,
    role_second,
    role_joined,
    roles
};

static const char *const role_names[roles] = {"sheet", "memory", "input", "output", "schedule",
                                              "board", "state",  "first", "second", "joined"};

/* The bytes of a tick's state; the last three mean nothing. */
enum { state_due, state_restart, state_stored, state_number, state_sheet, bytes_of_state = 8 };

enum { refusals = 23, last_refusal_of_sheet = 11, refused_unknown = 20, first_refusal = 65536 };

/* The highest bit of a join's answer: it refuses the second sheet. */
#define OF_SECOND (UINT32_C(1) << 31)

/* The refusals that documents 01 and 02 give to a call, the buffers that it may write where it is accepted, and those where it is refused
 * 20: one bit for each. */
struct call_rules {
    const char *name;
    uint32_t refusals;
    uint32_t writes;
    uint32_t writes_unknown;
};

#define REFUSALS_FROM_TO(first, last) ((UINT32_C(2) << (last)) - (UINT32_C(1) << (first)))
#define REFUSALS_IN_ROUNDS (REFUSALS_FROM_TO(1, 16) | REFUSALS_FROM_TO(refused_unknown, refused_unknown))
#define WRITES_MEMORY (UINT32_C(1) << role_memory)
#define WRITES_OUTPUT (UINT32_C(1) << role_output)
#define WRITES_SCHEDULE (UINT32_C(1) << role_schedule)
#define WRITES_STATE (UINT32_C(1) << role_state)
#define WRITES_JOINED (UINT32_C(1) << role_joined)

static const struct call_rules rules_of[calls] = {
    [call_check] = {"check", REFUSALS_FROM_TO(1, 11), 0, 0},
    [call_start] = {"start", REFUSALS_FROM_TO(1, 12), WRITES_MEMORY, 0},
    [call_preview] = {"preview", REFUSALS_IN_ROUNDS, WRITES_OUTPUT, 0},
    [call_rounds] = {"rounds", REFUSALS_IN_ROUNDS, WRITES_MEMORY | WRITES_OUTPUT, 0},
    [call_scheduled] = {"scheduled", REFUSALS_FROM_TO(1, 19), WRITES_MEMORY | WRITES_OUTPUT, 0},
    [call_make] = {"make", REFUSALS_FROM_TO(1, 11) | REFUSALS_FROM_TO(17, 17) | REFUSALS_FROM_TO(21, 21), WRITES_SCHEDULE, 0},
    [call_tick] = {"tick", REFUSALS_IN_ROUNDS | REFUSALS_FROM_TO(22, 22), WRITES_MEMORY | WRITES_OUTPUT | WRITES_STATE, WRITES_STATE},
    [call_join] = {"join", REFUSALS_FROM_TO(1, 11) | REFUSALS_FROM_TO(16, 16) | REFUSALS_FROM_TO(23, 23), WRITES_JOINED, 0},
};

/* The number of the refusal that an answer is, or 0. That of a join's second sheet is the number that the sheet has by itself; an answer
 * that has the highest bit and ought not to gives a number above all refusals. */
static inline uint32_t refusal_of(enum call call, uint32_t answer)
{
    const uint32_t refused = (answer & ~OF_SECOND) / first_refusal;
    const bool of_second = call == call_join && refused != 0 && refused <= last_refusal_of_sheet;
    return of_second ? refused : answer / first_refusal;
}

/* Whether a call may write a buffer where it is refused with this number, or accepted with 0. */
static inline bool may_write(enum call call, enum role role, uint32_t refused)
{
    uint32_t writes = 0;
    if (refused == 0)
        writes = rules_of[call].writes;
    else if (refused == refused_unknown)
        writes = rules_of[call].writes_unknown;
    return (writes >> role & 1) != 0;
}

/* What a call is given; the check takes the sheet alone, the start sheet and memory, preview and rounds sheet, memory and rows, the
 * scheduled instant the schedule too, the maker sheet and schedule, the tick board, memory, rows and state, and the join two sheets and the
 * joined one. */
struct arguments {
    struct {
        uint8_t *bytes;
        size_t length;
    } of[roles];
};

struct implementation {
    uint32_t (*check)(const uint8_t *, size_t);
    uint32_t (*start)(const uint8_t *, size_t, uint8_t *, size_t);
    uint32_t (*preview)(const uint8_t *, size_t, const uint8_t *, size_t, const uint8_t *, size_t, uint8_t *, size_t);
    uint32_t (*rounds)(const uint8_t *, size_t, uint8_t *, size_t, const uint8_t *, size_t, uint8_t *, size_t);
    uint32_t (*scheduled)(const uint8_t *, size_t, uint8_t *, size_t, const uint8_t *, size_t, uint8_t *, size_t, const uint8_t *,
                          size_t);
    uint32_t (*make)(const uint8_t *, size_t, uint8_t *, size_t);
    uint32_t (*tick)(const uint8_t *, size_t, uint8_t *, size_t, const uint8_t *, size_t, uint8_t *, size_t, uint8_t *, size_t);
    uint32_t (*join)(const uint8_t *, size_t, const uint8_t *, size_t, uint8_t *, size_t);
};

/* An argument as the calls have it: a pointer and a length. */
#define ARGUMENT(role) arguments->of[role].bytes, arguments->of[role].length

static inline uint32_t run(const struct implementation *implementation, enum call call, const struct arguments *arguments)
{
    switch (call) {
    case call_check:
        return implementation->check(ARGUMENT(role_sheet));
    case call_start:
        return implementation->start(ARGUMENT(role_sheet), ARGUMENT(role_memory));
    case call_preview:
        return implementation->preview(ARGUMENT(role_sheet), ARGUMENT(role_memory), ARGUMENT(role_input), ARGUMENT(role_output));
    case call_rounds:
        return implementation->rounds(ARGUMENT(role_sheet), ARGUMENT(role_memory), ARGUMENT(role_input), ARGUMENT(role_output));
    case call_scheduled:
        return implementation->scheduled(ARGUMENT(role_sheet), ARGUMENT(role_memory), ARGUMENT(role_input), ARGUMENT(role_output),
                                         ARGUMENT(role_schedule));
    case call_make:
        return implementation->make(ARGUMENT(role_sheet), ARGUMENT(role_schedule));
    case call_tick:
        return implementation->tick(ARGUMENT(role_board), ARGUMENT(role_memory), ARGUMENT(role_input), ARGUMENT(role_output),
                                    ARGUMENT(role_state));
    default:
        return implementation->join(ARGUMENT(role_first), ARGUMENT(role_second), ARGUMENT(role_joined));
    }
}

#endif
