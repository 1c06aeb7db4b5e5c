/* The visits of the rounds, counted by careful C: a round of the library works the same wires out. Rests on the sheets and careful C.
 */
#include "benchmark/visits.h"

#include "benchmark/careful/careful.h"

#include <stdio.h>

void print_visits(const struct group *group)
{
    struct visits sum = {0, 0, 0};
    for (unsigned index = 0; index < group->count; index++) {
        const struct sheet *const sheet = &group->sheets[index];
        const struct visits visits = careful_visits(sheet->bytes, sheet->length, sheet->memory, sheet->memory_length, sheet->input,
                                                    sheet->input_length, sheet->output_length);
        sum.made += visits.made;
        sum.unknown += visits.unknown;
        sum.all += visits.all;
    }
    printf("visits in rounds, %s: %u; wires unknown before each round %u, all wires in each round %u\n", group->name, sum.made,
           sum.unknown, sum.all);
}
