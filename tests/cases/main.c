/* Runs all tables of hand-written cases. Rests on the runner and on the tables, each in a file of its own.
 *
 * Usage: cases
 */
#include "cases/runner.h"

#include <stdio.h>

extern const struct table cases_a_to_l, cases_of_limits, cases_of_sheet_refusals, cases_of_row_refusals, cases_of_readings,
    cases_of_arithmetic, cases_of_rounds, cases_of_waiting, cases_of_schedules, cases_of_depths, cases_of_kept,
    cases_of_machines, cases_of_boards, cases_of_ticks, cases_of_joining, cases_of_joined;

static const struct table *const tables[] = {
    &cases_a_to_l, &cases_of_limits, &cases_of_sheet_refusals, &cases_of_row_refusals, &cases_of_readings, &cases_of_arithmetic,
    &cases_of_rounds, &cases_of_waiting, &cases_of_schedules, &cases_of_depths, &cases_of_kept,
    &cases_of_machines, &cases_of_boards, &cases_of_ticks, &cases_of_joining, &cases_of_joined,
};

int main(void)
{
    struct tally tally = {0, 0};
    for (unsigned index = 0; index < sizeof tables / sizeof tables[0]; index++)
        run_table(tables[index], &tally);
    printf("cases: %u passed, %u failed\n", tally.passed, tally.failed);
    return tally.failed == 0 ? 0 : 1;
}
