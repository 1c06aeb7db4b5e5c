/* The comparison of one call: guarded copies for both sides, the same answer, the same bytes, nothing written that may not be.
 * Rests on the guarded buffers, the library and the evaluator.
 */
#include "comparison/harness.h"

#include "common/library.h"
#include "evaluator/calls.h"

#include <stdio.h>
#include <stdlib.h>
#include <string.h>

static void print_answer(const char *whose, enum call call, uint32_t answer)
{
    const char *const which = call == call_join && answer >= OF_SECOND ? " in the second sheet" : "";
    printf("%s answers %u (refusal %u, place %u%s)\n", whose, (unsigned)answer, (unsigned)refusal_of(call, answer),
           (unsigned)(answer % first_refusal), which);
}

static void print_bytes(const char *whose, const char *name, const uint8_t *bytes, size_t length)
{
    printf("%s %s (%zu):", whose, name, length);
    for (size_t index = 0; index < length; index++)
        printf(" %u", (unsigned)bytes[index]);
    printf("\n");
}

_Noreturn void report_mismatch(struct harness *harness, enum call call, const struct buffers *before, const char *reason)
{
    printf("mismatch: %s\n", reason);
    printf("seed %llu, case %lu, call %s\n", (unsigned long long)harness->seed, harness->case_number, rules_of[call].name);
    print_answer("library", call, harness->library_answer);
    print_answer("evaluator", call, harness->evaluator_answer);
    for (unsigned role = 0; role < roles; role++) {
        const size_t length = before->of[role].length;
        print_bytes("before", role_names[role], before->of[role].bytes, length);
        print_bytes("library", role_names[role], content(&harness->library, role), length);
        print_bytes("evaluator", role_names[role], content(&harness->evaluator, role), length);
    }
    exit(1);
}

static void demand_same_buffers(struct harness *harness, enum call call, const struct buffers *before)
{
    const uint32_t refused = refusal_of(call, harness->evaluator_answer);
    for (unsigned role = 0; role < roles; role++) {
        const struct buffer *const old = &before->of[role];
        const uint8_t *const bytes = content(&harness->library, role);
        if (memcmp(bytes, content(&harness->evaluator, role), old->length) != 0)
            report_mismatch(harness, call, before, "different bytes");
        if (!may_write(call, role, refused) && memcmp(bytes, old->bytes, old->length) != 0)
            report_mismatch(harness, call, before, "bytes changed that must not be");
    }
}

static void demand_same(struct harness *harness, enum call call, const struct buffers *before)
{
    const uint32_t refused = refusal_of(call, harness->evaluator_answer);
    if (!canaries_live(&harness->library))
        report_mismatch(harness, call, before, "library wrote outside its buffers");
    if (!canaries_live(&harness->evaluator))
        report_mismatch(harness, call, before, "evaluator wrote outside its buffers");
    if (harness->library_answer != harness->evaluator_answer)
        report_mismatch(harness, call, before, "different answers");
    demand_same_buffers(harness, call, before);
    if (refused > refusals || (refused != 0 && (rules_of[call].refusals >> refused & 1) == 0))
        report_mismatch(harness, call, before, "a refusal that this call does not use");
}

uint32_t compare_call(struct harness *harness, enum call call, const struct buffers *before, struct buffers *after)
{
    /* Different canaries: an answer that depends on bytes outside a buffer shows as a mismatch. */
    const uint8_t canary = (uint8_t)(next_random(&harness->random) >> 56);
    guard(&harness->library, before, canary);
    guard(&harness->evaluator, before, (uint8_t)~canary);
    harness->library_answer = call_of(&library, call, &harness->library);
    harness->evaluator_answer = call_of(&evaluator, call, &harness->evaluator);
    demand_same(harness, call, before);
    harness->statistics.met[call][refusal_of(call, harness->library_answer)]++;
    if (after != before)
        copy_buffers(after, before);
    for (unsigned role = 0; role < roles; role++)
        memcpy(after->of[role].bytes, content(&harness->library, role), after->of[role].length);
    return harness->library_answer;
}
