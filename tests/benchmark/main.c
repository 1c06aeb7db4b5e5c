/* The library against C, in one run: for each call and group of sheets, for the tick and each board, and for the join and pairs, the times
 * and their ratio, then the visits of the rounds and the stack of each call. Rests on the sheets, the boards, the pairs, the agreement, the
 * times, the visits and the stack.
 *
 * Usage: benchmark
 */
#include "benchmark/agreement.h"
#include "benchmark/boards.h"
#include "benchmark/pairs.h"
#include "benchmark/sheets.h"
#include "benchmark/stack.h"
#include "benchmark/times.h"
#include "benchmark/visits.h"

#include <stdio.h>

static group_maker *const makers[] = {make_quarter, make_chain,    make_wide,           make_deep,
                                      make_kept,    make_machines, make_irregular_2000, make_irregular_4000};

enum { groups_timed = sizeof makers / sizeof makers[0] };

/* Everything that is timed, and whether the yardsticks agree with the library on it. */
static bool prepare_all(struct group *groups, struct board *boards, struct pairs *pairs)
{
    for (unsigned index = 0; index < groups_timed; index++) {
        makers[index](&groups[index]);
        if (!prepare_group(&groups[index]))
            return false;
    }
    make_boards(boards);
    for (unsigned index = 0; index < boards_timed; index++) {
        if (!ticks_agree(&boards[index]))
            return false;
    }
    make_pairs(pairs);
    for (unsigned index = 0; index < pairs_timed; index++) {
        if (!joins_agree(&pairs[index]))
            return false;
    }
    return true;
}

int main(void)
{
    static struct group groups[groups_timed];
    static struct board boards[boards_timed];
    static struct pairs pairs[pairs_timed];
    if (!prepare_all(groups, boards, pairs))
        return 1;
    print_head_of_times();
    for (unsigned index = 0; index < groups_timed; index++) {
        for (unsigned call = 0; call < calls_of_sheet; call++)
            print_times(call, &groups[index]);
    }
    for (unsigned index = 0; index < boards_timed; index++)
        print_times_of_ticks(&boards[index]);
    for (unsigned index = 0; index < pairs_timed; index++)
        print_times_of_joins(&pairs[index]);
    for (unsigned index = 0; index < groups_timed; index++)
        print_visits(&groups[index]);
    for (unsigned call = 0; call < calls_of_sheet; call++)
        printf("stack of %s: %zu bytes\n", rules_of[call].name, stack_of_call(call, groups, groups_timed));
    printf("stack of %s: %zu bytes\n", rules_of[call_tick].name, stack_of_tick(boards, boards_timed));
    printf("stack of %s: %zu bytes\n", rules_of[call_join].name, stack_of_join(pairs, pairs_timed));
    return 0;
}
