/* What a joined sheet promises beside its two parts, whatever the evaluator says: its start is the two joined, and from joined memories
 * and rows an instant, in rounds or along a joined list, is accepted exactly if both are and then leaves the two joined, in as many rounds
 * as the longer of them. Rests on the harness, on the generator's pairs and rows, and on the pair that joining.c joined.
 */
#include "comparison/case.h"

#include "generator/rows.h"
#include "generator/spoiling.h"

/* ---- Both as one ---- */

/* Puts what the two are given, one behind the other, into what the joined sheet is given; entries of a list are raised. */
static void join_parts(struct workspace *workspace, enum role role)
{
    struct buffer *const whole = &workspace->joining.of[role];
    const unsigned raise = role == role_schedule ? workspace->pair.sheets[0].plan.wires : 0;
    copy_buffer(whole, &workspace->alone[0].of[role]);
    const size_t second = whole->length;
    append_buffer(whole, &workspace->alone[1].of[role]);
    for (size_t index = second; index < whole->length; index++)
        whole->bytes[index] = (uint8_t)(whole->bytes[index] + raise);
}

static bool is_joined(const struct buffer *whole, const struct buffer *first, const struct buffer *second)
{
    struct buffer both;
    copy_buffer(&both, first);
    append_buffer(&both, second);
    return same_bytes(whole, &both);
}

/* ---- The start ---- */

static void compare_joined_start(struct harness *harness, struct workspace *workspace)
{
    struct buffers *const joining = &workspace->joining;
    struct buffers *const alone = workspace->alone;
    for (unsigned sheet = 0; sheet < sheets_of_pair; sheet++) {
        const size_t length = (size_t)bytes_of_cell * workspace->pair.sheets[sheet].cells;
        fill_with_rubbish(&harness->random, &alone[sheet].of[role_memory], length);
        (void)compare_call(harness, call_start, &alone[sheet], &alone[sheet]);
    }
    fill_with_rubbish(&harness->random, &joining->of[role_memory], (size_t)bytes_of_cell * sum_of_pair(&workspace->pair, sum_cells));
    if (compare_call(harness, call_start, joining, joining) != 0 ||
        !is_joined(&joining->of[role_memory], &alone[0].of[role_memory], &alone[1].of[role_memory]))
        report_mismatch(harness, call_start, joining, "K10: the starting memory is not the two joined");
}

/* ---- The instants ---- */

/* What the three instants answered. */
struct answers {
    uint32_t of_part[sheets_of_pair];
    uint32_t of_joined;
};

/* Counts one way: accepted, or refused for the first part alone, for the second alone, for both. */
static void note_instant(unsigned long *count, const struct answers *answers)
{
    const bool first = answers->of_part[0] < first_refusal;
    const bool second = answers->of_part[1] < first_refusal;
    if (first)
        count[second ? 0 : 2]++;
    else
        count[second ? 1 : 3]++;
}

/* Makes an instant of each sheet by itself and of the joined one, which leaves what it leaves in "after". */
static struct answers compare_instant_of_three(struct harness *harness, struct workspace *workspace, enum call call, struct buffers *after)
{
    const struct buffers *const joining = &workspace->joining;
    struct buffers *const alone_after = workspace->alone_after;
    struct answers answers;
    for (unsigned sheet = 0; sheet < sheets_of_pair; sheet++)
        answers.of_part[sheet] = compare_call(harness, call, &workspace->alone[sheet], &alone_after[sheet]);
    answers.of_joined = compare_call(harness, call, joining, after);
    const bool both = answers.of_part[0] < first_refusal && answers.of_part[1] < first_refusal;
    if ((answers.of_joined < first_refusal) != both)
        report_mismatch(harness, call, joining, "K10: accepted, and one part is not, or not accepted, and both are");
    if (both && (!is_joined(&after->of[role_memory], &alone_after[0].of[role_memory], &alone_after[1].of[role_memory]) ||
                 !is_joined(&after->of[role_output], &alone_after[0].of[role_output], &alone_after[1].of[role_output])))
        report_mismatch(harness, call, joining, "K10: memory or output row is not the two joined");
    return answers;
}

static bool compare_joined_rounds(struct harness *harness, struct workspace *workspace)
{
    unsigned long *const count = harness->statistics.count;
    const struct answers answers = compare_instant_of_three(harness, workspace, call_rounds, &workspace->by_rounds);
    const uint32_t first = answers.of_part[0];
    const uint32_t second = answers.of_part[1];
    note_instant(count + counter_joined_instants, &answers);
    count[counter_joined_instants_unknown] += answers.of_joined / first_refusal == refused_unknown;
    if (answers.of_joined >= first_refusal)
        return false;
    if (answers.of_joined != (first > second ? first : second))
        report_mismatch(harness, call_rounds, &workspace->joining, "K10: the rounds are not the larger count");
    count[counter_joined_rounds_of_first] += first > second;
    count[counter_joined_rounds_of_second] += first < second;
    return true;
}

static void compare_joined_schedule(struct harness *harness, struct workspace *workspace, bool accepted_in_rounds)
{
    const struct buffers *const by_rounds = &workspace->by_rounds;
    const struct buffers *const by_schedule = &workspace->by_schedule;
    const struct answers answers = compare_instant_of_three(harness, workspace, call_scheduled, &workspace->by_schedule);
    note_instant(harness->statistics.count + counter_joined_schedules, &answers);
    if (answers.of_joined != 0)
        return;
    if (!accepted_in_rounds || !same_bytes(&by_rounds->of[role_memory], &by_schedule->of[role_memory]) ||
        !same_bytes(&by_rounds->of[role_output], &by_schedule->of[role_output]))
        report_mismatch(harness, call_scheduled, &workspace->joining, "K10: along the joined list something else than in rounds");
}

/* ---- What they are given ---- */

/* A list that passes where there is one, or one that may not: in any order, with a wire twice, or with one that is not there. It names no
 * wire so high that raised it would be another's. */
static void fill_list(struct random *random, const struct generator *generator, struct buffer *list)
{
    const unsigned wires = generator->plan.wires;
    if (percent(random, 20))
        fill_with_permutation(random, wires, list);
    else
        (void)fill_schedule(random, generator, list);
    if (percent(random, 10))
        list->bytes[below(random, wires)] = (uint8_t)below(random, wires + 1);
}

/* The memories are there. Each part is sometimes spoilt, so that the instant is refused for the one, the other or both. */
static void prepare_parts(struct harness *harness, struct workspace *workspace)
{
    struct random *const random = &harness->random;
    for (unsigned sheet = 0; sheet < sheets_of_pair; sheet++) {
        const struct generator *const generator = &workspace->pair.sheets[sheet];
        struct buffers *const alone = &workspace->alone[sheet];
        fill_input(random, generator->input_types, generator->plan.inputs, &alone->of[role_input]);
        fill_with_rubbish(random, &alone->of[role_output], (size_t)bytes_of_number * generator->plan.outputs);
        fill_list(random, generator, &alone->of[role_schedule]);
        if (percent(random, 12))
            spoil_contents(random, alone);
    }
    for (unsigned role = role_memory; role <= role_schedule; role++)
        join_parts(workspace, role);
}

static void compare_joined_instant(struct harness *harness, struct workspace *workspace)
{
    struct buffer memories[sheets_of_pair];
    for (unsigned sheet = 0; sheet < sheets_of_pair; sheet++)
        copy_buffer(&memories[sheet], &workspace->alone[sheet].of[role_memory]);
    prepare_parts(harness, workspace);
    const bool accepted = compare_joined_rounds(harness, workspace);
    for (unsigned sheet = 0; sheet < sheets_of_pair && accepted; sheet++)
        copy_buffer(&memories[sheet], &workspace->alone_after[sheet].of[role_memory]);
    compare_joined_schedule(harness, workspace, accepted);
    for (unsigned sheet = 0; sheet < sheets_of_pair; sheet++)
        copy_buffer(&workspace->alone[sheet].of[role_memory], &memories[sheet]);
}

void compare_joined_sheet(struct harness *harness, struct workspace *workspace)
{
    struct random *const random = &harness->random;
    const bool from_start = percent(random, 60);
    for (unsigned sheet = 0; sheet < sheets_of_pair; sheet++) {
        for (unsigned role = 0; role < roles; role++)
            workspace->alone[sheet].of[role].length = 0;
        copy_buffer(&workspace->alone[sheet].of[role_sheet], &workspace->pair.bytes[sheet]);
    }
    compare_joined_start(harness, workspace);
    for (unsigned sheet = 0; sheet < sheets_of_pair && !from_start; sheet++)
        fill_memory(random, &workspace->pair.sheets[sheet], &workspace->alone[sheet].of[role_memory]);
    for (unsigned left = between(random, 2, 5); left != 0; left--)
        compare_joined_instant(harness, workspace);
}
