/* The pairs of the benchmark, taken from its sheets, and a join with a pair's buffers. Rests on the sheets and the table of calls. */
#include "benchmark/pairs.h"

#include <string.h>

/* What the second sheet of two does not have again: its three counts. */
enum { bytes_of_counts = 3 };

/* So many pairs, each of a sheet of one group and of one of another; or of a group's own sheet and the one behind it. */
static const struct {
    const char *name;
    group_maker *first;
    group_maker *second;
    unsigned count;
} plans[pairs_timed] = {
    {"2 quarter sheets", make_quarter, make_quarter, 1},
    {"quarter and relay", make_quarter, make_relay, 1},
    {"2 random, 2,000 bytes", make_irregular_halves, make_irregular_halves, most_pairs},
};

static void make_pair(struct pair *pair, const struct group *first, const struct group *second, unsigned index)
{
    pair->first = first->sheets[2 * index % first->count];
    pair->second = second->sheets[(2 * index + 1) % second->count];
    pair->joined_length = pair->first.length + pair->second.length - bytes_of_counts;
}

void make_pairs(struct pairs pairs[pairs_timed])
{
    static struct group first, second;
    for (unsigned line = 0; line < pairs_timed; line++) {
        memset(&first, 0, sizeof first);
        memset(&second, 0, sizeof second);
        plans[line].first(&first);
        plans[line].second(&second);
        pairs[line].name = plans[line].name;
        pairs[line].count = plans[line].count;
        for (unsigned index = 0; index < plans[line].count; index++)
            make_pair(&pairs[line].pairs[index], &first, &second, index);
    }
}

uint32_t join_of(const struct implementation *implementation, struct pair *pair)
{
    const struct arguments arguments = {
        .of = {
            [role_first] = {pair->first.bytes, pair->first.length},
            [role_second] = {pair->second.bytes, pair->second.length},
            [role_joined] = {pair->joined, pair->joined_length},
        },
    };
    return run(implementation, call_join, &arguments);
}
