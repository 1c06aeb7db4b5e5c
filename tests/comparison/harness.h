/* One call made of the library and of the evaluator on the same bytes, which must leave the same; a mismatch is reported with all its
 * bytes and ends the program. Rests on the guarded buffers and the statistics.
 */
#ifndef COMPARISON_HARNESS_H
#define COMPARISON_HARNESS_H

#include "comparison/guarded.h"
#include "comparison/statistics.h"

struct harness {
    uint64_t seed;
    unsigned long case_number;
    struct random random;
    struct side library;
    struct side evaluator;
    uint32_t library_answer;
    uint32_t evaluator_answer;
    struct statistics statistics;
};

/* Makes the call of both; what it leaves goes to "after", which may be the same as "before". Answers what both answer. */
uint32_t compare_call(struct harness *harness, enum call call, const struct buffers *before, struct buffers *after);

_Noreturn void report_mismatch(struct harness *harness, enum call call, const struct buffers *before, const char *reason);

#endif
