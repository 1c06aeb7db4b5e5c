/* The library and the yardsticks side by side, before anything is timed: the same answers and the same buffers. Rests on the sheets, the
 * boards, the pairs and the yardsticks of the times.
 */
#include "benchmark/agreement.h"

#include "benchmark/times.h"

#include <stdio.h>
#include <string.h>

enum { instants = 50 };

/* ---- Sheets ---- */

static bool same_buffers(const struct sheet *first, const struct sheet *second)
{
    return memcmp(first->bytes, second->bytes, sizeof first->bytes) == 0 &&
           memcmp(first->memory, second->memory, sizeof first->memory) == 0 &&
           memcmp(first->input, second->input, sizeof first->input) == 0 &&
           memcmp(first->output, second->output, sizeof first->output) == 0 &&
           memcmp(first->schedule, second->schedule, sizeof first->schedule) == 0;
}

static bool accepted(const char *name, enum call call, uint32_t answer)
{
    if (answer >= first_refusal)
        printf("%s, %s: refused %u at %u\n", name, rules_of[call].name, (unsigned)nuthatchbed_refusal(answer),
               (unsigned)nuthatchbed_place(answer));
    return answer < first_refusal;
}

static bool is_same(const char *name, enum call call, unsigned index, bool same)
{
    if (!same)
        printf("%s, %s: %s differs from the library\n", name, rules_of[call].name, yardstick[index].name);
    return same;
}

/* Makes the call by the library on the sheet itself, and by each yardstick on a copy. */
static bool agree(struct sheet *sheet, enum call call, const char *name)
{
    static struct sheet copies[yardsticks];
    for (unsigned index = 0; index < yardsticks; index++)
        copies[index] = *sheet;
    const uint32_t answer = call_of(&library, call, sheet);
    bool same = accepted(name, call, answer);
    for (unsigned index = 0; same && index < yardsticks; index++) {
        const uint32_t other = call_of(yardstick[index].implementation, call, &copies[index]);
        same = is_same(name, call, index, other == answer && same_buffers(&copies[index], sheet));
    }
    return same;
}

/* Each call from the sheet's own buffers, then instants from memory to memory. */
static bool all_agree(const struct sheet *sheet, const char *name)
{
    static struct sheet copy;
    bool same = true;
    for (unsigned call = 0; call < calls_of_sheet; call++) {
        copy = *sheet;
        for (unsigned instant = 0; same && instant < instants; instant++)
            same = agree(&copy, call, name);
    }
    return same;
}

bool prepare_group(struct group *group)
{
    start_group(group);
    for (unsigned index = 0; index < group->count; index++) {
        if (!all_agree(&group->sheets[index], group->name))
            return false;
    }
    return true;
}

/* ---- Boards ---- */

static bool same_buffers_of_board(const struct board *first, const struct board *second)
{
    return memcmp(first->bytes, second->bytes, sizeof first->bytes) == 0 &&
           memcmp(first->memory, second->memory, sizeof first->memory) == 0 &&
           memcmp(first->input, second->input, sizeof first->input) == 0 &&
           memcmp(first->output, second->output, sizeof first->output) == 0 &&
           memcmp(first->state, second->state, sizeof first->state) == 0;
}

bool ticks_agree(const struct board *board)
{
    static struct board of_library, of_yardstick[yardsticks];
    bool same = true;
    of_library = *board;
    for (unsigned index = 0; index < yardsticks; index++)
        of_yardstick[index] = *board;
    for (unsigned tick = 0; same && tick < instants; tick++) {
        const uint32_t answer = tick_of(&library, &of_library);
        same = accepted(board->name, call_tick, answer);
        for (unsigned index = 0; same && index < yardsticks; index++) {
            const uint32_t other = tick_of(yardstick[index].implementation, &of_yardstick[index]);
            same = is_same(board->name, call_tick, index, other == answer && same_buffers_of_board(&of_yardstick[index], &of_library));
        }
    }
    return same;
}

/* ---- Pairs ---- */

static bool join_agrees(const struct pair *pair, const char *name)
{
    static struct pair of_library, of_yardstick;
    of_library = *pair;
    const uint32_t answer = join_of(&library, &of_library);
    bool same = accepted(name, call_join, answer);
    for (unsigned index = 0; same && index < yardsticks; index++) {
        of_yardstick = *pair;
        const uint32_t other = join_of(yardstick[index].implementation, &of_yardstick);
        const bool same_bytes = memcmp(of_yardstick.joined, of_library.joined, sizeof of_library.joined) == 0;
        same = is_same(name, call_join, index, other == answer && same_bytes);
    }
    return same;
}

bool joins_agree(const struct pairs *pairs)
{
    bool same = true;
    for (unsigned index = 0; same && index < pairs->count; index++)
        same = join_agrees(&pairs->pairs[index], pairs->name);
    return same;
}
