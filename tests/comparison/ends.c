/* Pairs of numbers at and near the ends, where add, subtract and negate stop: an instant of each pair both ways, and a register that
 * counts the first number on. Rests on the instants of a case.
 */
#include "comparison/case.h"

#include "generator/rows.h"

#include <stdio.h>
#include <string.h>

/* Inputs x and y; wires: x + y, x - y, -x, x below y, x equals y, and the register, (pre 0 of itself) + x. */
static const uint8_t sheet[] = {
    2, 1, 1, 6, 1, 1, 1, 0, 0, 1, 6, 0, 1, 2, 3, 4, 5, 8, 3, 0, 3, 1, 9, 3, 0,
    3, 1, 5, 3, 0, 10, 3, 0, 3, 1, 11, 3, 0, 3, 1, 8, 16, 0, 0, 0, 0, 2, 5, 3, 0,
};

enum { wires = 6 };

/* At most four from an end. */
static uint32_t number_near_end(struct random *random)
{
    return UINT32_C(0x80000000) - 5 + below(random, 10);
}

static uint32_t number_of_pair(struct random *random)
{
    return percent(random, 60) ? number_near_end(random) : random_number(random);
}

/* A number whose sum with the other, or whose difference from it, comes near an end in 32 bits. */
static uint32_t number_that_meets(struct random *random, uint32_t other)
{
    const uint32_t end = number_near_end(random);
    return percent(random, 50) ? end - other : other - end;
}

/* Where the exact results lay. */
struct results {
    unsigned long stopped_above;
    unsigned long stopped_below;
    unsigned long one_beyond_an_end;
    unsigned long an_end;
};

static void count_result(struct results *results, int64_t exact)
{
    results->stopped_above += exact > INT32_MAX;
    results->stopped_below += exact < INT32_MIN;
    results->one_beyond_an_end += exact == INT64_C(1) + INT32_MAX || exact == INT64_C(-1) + INT32_MIN;
    results->an_end += exact == INT32_MAX || exact == INT32_MIN;
}

/* In 64 bits, where the results are exact. */
static void count_results(struct results *results, int64_t first, int64_t second, int64_t held)
{
    count_result(results, first + second);
    count_result(results, first - second);
    count_result(results, -first);
    count_result(results, held + first);
}

static void compare_pair(struct harness *harness, struct workspace *workspace, struct results *results)
{
    struct random *const random = &harness->random;
    struct buffers *const given = &workspace->given;
    const uint32_t first = number_of_pair(random);
    const uint32_t second = percent(random, 50) ? number_that_meets(random, first) : number_of_pair(random);
    const uint32_t held = number_of_pair(random);
    given->of[role_input].length = 0;
    append_number(&given->of[role_input], first);
    append_number(&given->of[role_input], second);
    given->of[role_memory].length = 0;
    append(&given->of[role_memory], 1);
    append_number(&given->of[role_memory], held);
    fill_with_rubbish(random, &given->of[role_output], (size_t)bytes_of_number * wires);
    fill_with_permutation(random, wires, &given->of[role_schedule]);
    if (!compare_instant(harness, workspace, true))
        report_mismatch(harness, call_rounds, given, "an instant of two numbers is refused");
    count_results(results, (int32_t)first, (int32_t)second, (int32_t)held);
}

bool compare_pairs(struct harness *harness, struct workspace *workspace, unsigned long pairs)
{
    struct buffer *const bytes = &workspace->given.of[role_sheet];
    struct results results = {0, 0, 0, 0};
    memset(&workspace->subject, 0, sizeof workspace->subject);
    workspace->subject.wires = wires;
    memcpy(bytes->bytes, sheet, sizeof sheet);
    bytes->length = sizeof sheet;
    harness->random.state = harness->seed;
    for (unsigned long pair = 0; pair < pairs; pair++)
        compare_pair(harness, workspace, &results);
    printf("exact results of pairs: %lu above the range, %lu below it, %lu of these by one; %lu are an end\n", results.stopped_above,
           results.stopped_below, results.one_beyond_an_end, results.an_end);
    return results.stopped_above != 0 && results.stopped_below != 0 && results.one_beyond_an_end != 0 && results.an_end != 0;
}
