/* The step of a case that joins a pair of sheets. Beside the comparison with the evaluator the checks of the two sheets and their headers
 * tell what the answer must be, for damaged sheets too; a joined sheet must pass the check with the cells of both. Rests on the harness,
 * on the generator's pairs and on joined_sheets.c.
 */
#include "comparison/case.h"

enum { refused_buffer = 16, refused_sum = 23 };

/* What is told without the join: the answers of the checks, and where both sheets pass what they have together and how much of that is
 * above its limit. */
struct told {
    uint32_t checks[sheets_of_pair];
    unsigned sum[sums];
    unsigned above;
};

/* ---- What the answer must be ---- */

static uint32_t check_alone(struct harness *harness, struct workspace *workspace, enum role role)
{
    struct buffers *const alone = &workspace->alone[0];
    for (unsigned other = 0; other < roles; other++)
        alone->of[other].length = 0;
    copy_buffer(&alone->of[role_sheet], &workspace->joining.of[role]);
    return compare_call(harness, call_check, alone, alone);
}

/* Of a sheet that passed. */
static void add_header(const struct buffer *sheet, unsigned *sum)
{
    const unsigned inputs = sheet->bytes[0];
    const unsigned wires = sheet->bytes[1 + inputs];
    sum[sum_inputs] += inputs;
    sum[sum_wires] += wires;
    sum[sum_outputs] += sheet->bytes[2 + inputs + wires];
}

static struct told tell(struct harness *harness, struct workspace *workspace)
{
    const struct buffer *const first = &workspace->joining.of[role_first];
    const struct buffer *const second = &workspace->joining.of[role_second];
    struct told told = {{check_alone(harness, workspace, role_first), check_alone(harness, workspace, role_second)}, {0}, 0};
    if (told.checks[0] >= first_refusal || told.checks[1] >= first_refusal)
        return told;
    add_header(first, told.sum);
    add_header(second, told.sum);
    told.sum[sum_cells] = told.checks[0] + told.checks[1];
    told.sum[sum_length] = (unsigned)(first->length + second->length) - bytes_of_counts;
    for (unsigned sum = 0; sum < sums; sum++)
        told.above += told.sum[sum] > limit_of_sum[sum];
    return told;
}

static uint32_t expected_answer(const struct told *told, size_t lent)
{
    if (told->checks[0] >= first_refusal)
        return told->checks[0];
    if (told->checks[1] >= first_refusal)
        return told->checks[1] + OF_SECOND;
    if (told->above != 0)
        return refused_sum * first_refusal;
    return lent != told->sum[sum_length] ? refused_buffer * first_refusal : 0;
}

/* ---- What was met ---- */

static void note_refused_sheet(unsigned long *count, const struct told *told, const struct buffers *joining)
{
    const bool long_together = joining->of[role_first].length + joining->of[role_second].length > longest_sheet + bytes_of_counts;
    const bool first = told->checks[0] >= first_refusal;
    const bool second = told->checks[1] >= first_refusal;
    count[counter_joins_refused_first] += first;
    count[counter_joins_refused_first_of_two] += first && second;
    count[counter_joins_refused_second] += !first;
    count[counter_joins_refused_second_too_long] += !first && long_together;
}

/* One limit is overstepped, by one, or more. */
static void note_refused_sum(unsigned long *count, const struct told *told, size_t lent)
{
    for (unsigned sum = 0; sum < sums; sum++) {
        const bool by_one = told->sum[sum] == limit_of_sum[sum] + 1;
        count[counter_joins_refused_inputs + sum] += told->above == 1 && told->sum[sum] > limit_of_sum[sum];
        count[counter_joins_refused_17_inputs + sum] += told->above == 1 && by_one;
    }
    count[counter_joins_refused_sum_and_buffer] += lent != told->sum[sum_length];
}

static void note_refused_buffer(unsigned long *count, unsigned right, size_t lent)
{
    count[counter_joins_refused_short] += lent + 1 == right;
    count[counter_joins_refused_long] += lent == right + 1;
    count[counter_joins_refused_empty] += lent == 0;
    count[counter_joins_refused_sum_of_lengths] += lent == right + bytes_of_counts;
}

static void note_joined(unsigned long *count, const struct told *told)
{
    count[counter_joins]++;
    for (unsigned sum = 0; sum < sums; sum++)
        count[counter_joins_16_inputs + sum] += told->sum[sum] == limit_of_sum[sum];
}

_Static_assert(counter_joins_16_inputs + sum_length == counter_joins_4096_bytes, "counted in the order of the sums");
_Static_assert(counter_joins_refused_inputs + sum_length == counter_joins_refused_bytes, "counted in the order of the sums");
_Static_assert(counter_joins_refused_17_inputs + sum_length == counter_joins_refused_4097_bytes, "counted in the order of the sums");

static void note_join(unsigned long *count, const struct told *told, const struct buffers *joining, uint32_t answer)
{
    const size_t lent = joining->of[role_joined].length;
    switch (refusal_of(call_join, answer)) {
    case 0:
        note_joined(count, told);
        break;
    case refused_buffer:
        note_refused_buffer(count, told->sum[sum_length], lent);
        break;
    case refused_sum:
        note_refused_sum(count, told, lent);
        break;
    default:
        note_refused_sheet(count, told, joining);
        break;
    }
}

/* What the second sheet of a joined pair has that is to be shifted, or kept as it is. */
static void note_second(unsigned long *count, const struct board *pair)
{
    const struct generator *const second = &pair->sheets[1];
    const unsigned delayed = 1u << above_pre | 1u << above_right_of_fby;
    bool kept = false;
    bool lasts = false;
    for (unsigned wire = 0; wire < second->plan.wires; wire++) {
        kept = kept || second->kept[wire];
        lasts = lasts || second->lasts[wire] != 0;
    }
    count[counter_joins_second_kept] += kept;
    count[counter_joins_second_lasts] += lasts;
    count[counter_joins_second_lasts_delayed] += (second->above_lasts & delayed) != 0;
    count[counter_joins_second_machines] += second->machines != 0;
    count[counter_joins_second_inputs_delayed] += pair->sheets[0].plan.inputs != 0 && (second->above_inputs & delayed) != 0;
}

/* ---- The step ---- */

/* Joins the two sheets of the pair, as they are at hand, into a buffer of this length; answers whether that is accepted, and leaves the
 * joined sheet also as the one that is given. */
static bool compare_join(struct harness *harness, struct workspace *workspace, size_t lent)
{
    struct buffers *const joining = &workspace->joining;
    for (unsigned role = 0; role < roles; role++)
        joining->of[role].length = 0;
    copy_buffer(&joining->of[role_first], &workspace->pair.bytes[0]);
    copy_buffer(&joining->of[role_second], &workspace->pair.bytes[1]);
    fill_with_rubbish(&harness->random, &joining->of[role_joined], lent);
    const struct told told = tell(harness, workspace);
    const uint32_t answer = compare_call(harness, call_join, joining, joining);
    if (answer != expected_answer(&told, lent))
        report_mismatch(harness, call_join, joining, "K10: another answer than the checks and the headers of the two sheets tell");
    note_join(harness->statistics.count, &told, joining, answer);
    if (answer != 0)
        return false;
    copy_buffer(&joining->of[role_sheet], &joining->of[role_joined]);
    if (compare_call(harness, call_check, joining, joining) != told.sum[sum_cells])
        report_mismatch(harness, call_check, joining, "K10: a joined sheet does not pass with the cells of both");
    return true;
}

static size_t right_length(const struct workspace *workspace)
{
    const size_t both = workspace->pair.bytes[0].length + workspace->pair.bytes[1].length;
    return both < bytes_of_counts ? 0 : both - bytes_of_counts;
}

static size_t another_length(struct random *random, size_t right)
{
    const size_t lengths[] = {right + 1, right == 0 ? 1 : right - 1, 0, right + bytes_of_counts, below(random, 2 * longest_sheet)};
    return lengths[below(random, sizeof lengths / sizeof lengths[0])];
}

/* One sheet damaged or both, sometimes with a buffer of another length too, for the order of the refusals. The pair stays as it is. */
static void compare_damaged_join(struct harness *harness, struct workspace *workspace)
{
    struct random *const random = &harness->random;
    struct board *const pair = &workspace->pair;
    const unsigned damaged = between(random, 1, 3); /* one bit for each sheet */
    struct buffer sound[sheets_of_pair];
    for (unsigned sheet = 0; sheet < sheets_of_pair; sheet++) {
        copy_buffer(&sound[sheet], &pair->bytes[sheet]);
        if ((damaged >> sheet & 1) != 0)
            spoil_sheet(random, pair, sheet);
    }
    const size_t right = right_length(workspace);
    (void)compare_join(harness, workspace, percent(random, 30) ? another_length(random, right) : right);
    for (unsigned sheet = 0; sheet < sheets_of_pair; sheet++)
        copy_buffer(&pair->bytes[sheet], &sound[sheet]);
}

void compare_joining(struct harness *harness, struct workspace *workspace)
{
    struct random *const random = &harness->random;
    if (harness->case_number % cases_for_pair != 0)
        return;
    generate_pair(random, &workspace->pair);
    for (unsigned times = 0; times < 2; times++)
        compare_damaged_join(harness, workspace);
    if (percent(random, 50))
        (void)compare_join(harness, workspace, another_length(random, right_length(workspace)));
    if (!compare_join(harness, workspace, right_length(workspace)))
        return;
    note_second(harness->statistics.count, &workspace->pair);
    harness->statistics.count[counter_joins_with_itself] += same_bytes(&workspace->pair.bytes[0], &workspace->pair.bytes[1]);
    compare_joined_sheet(harness, workspace);
}
