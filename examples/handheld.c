/* A handheld at the meter's door: it checks the quarter sheet, starts two memories, runs one day of quarter hours in rounds (as the
 * handheld does) and along a schedule (as the meter does), and compares the totals.
 *
 * Usage, from the top of the repository, once `rt lib` in crates/nuthatchbed has written the archive, and where there is a folder target/:
 *   cc -std=c11 -Wall -Wextra -Werror -Iinclude examples/handheld.c crates/nuthatchbed/out/libnuthatchbed.a -o target/handheld
 */
#include "nuthatchbed.h"

#include <stdbool.h>
#include <stdio.h>
#include <string.h>

/* Input 0 is the pulse, input 1 the boundary at which a quarter opens; output 0 is the count of the open quarter, output 1 what the
 * count was an instant before: at a boundary, the total of the quarter that has just closed. */
static const uint8_t quarter_sheet[] = {
    2, 0, 0, 2, 1, 1, 2, 0, 1,
    14, 3, 1, 8, 16, 0, 0, 0, 0, 2, 0, 12, 3, 0, 1, 1, 0, 0, 0, 1, 0, 0, 0, 0,
    16, 0, 0, 0, 0, 2, 0
};

static const uint8_t schedule[] = {0, 1};

enum { quarters = 96, minutes = 15, memory_bytes = 2 * NUTHATCHBED_CELL_BYTES, row_bytes = 2 * NUTHATCHBED_ENTRY_BYTES };

static void put_entry(uint8_t *row, unsigned entry, uint32_t number)
{
    for (unsigned byte = 0; byte < NUTHATCHBED_ENTRY_BYTES; byte++)
        row[NUTHATCHBED_ENTRY_BYTES * entry + byte] = (uint8_t)(number >> 8 * byte);
}

static uint32_t entry_of(const uint8_t *row, unsigned entry)
{
    uint32_t number = 0;
    for (unsigned byte = NUTHATCHBED_ENTRY_BYTES; byte > 0; byte--)
        number = number << 8 | row[NUTHATCHBED_ENTRY_BYTES * entry + byte - 1];
    return number;
}

/* A refusal is told in words a fitter can pass on. */
static bool refused(const char *call, uint32_t answer)
{
    if (nuthatchbed_refusal(answer) == 0)
        return false;
    fprintf(stderr, "%s: refused %u at %u\n", call, (unsigned)nuthatchbed_refusal(answer), (unsigned)nuthatchbed_place(answer));
    return true;
}

/* Whether a pulse falls into a minute of the day: any pattern will do, as long as some fall on boundaries. */
static bool pulse_in(unsigned minute)
{
    return minute * 7 % 11 < 4;
}

int main(void)
{
    uint8_t handheld[memory_bytes], meter[memory_bytes];
    uint8_t input[row_bytes], by_rounds[row_bytes], by_schedule[row_bytes];
    uint32_t billed = 0, pulses = 0;

    if (refused("check", nuthatchbed_check(quarter_sheet, sizeof quarter_sheet)) ||
        refused("start", nuthatchbed_start(quarter_sheet, sizeof quarter_sheet, handheld, sizeof handheld)) ||
        refused("start", nuthatchbed_start(quarter_sheet, sizeof quarter_sheet, meter, sizeof meter)))
        return 1;

    for (unsigned minute = 0; minute <= quarters * minutes; minute++) {
        const bool boundary = minute % minutes == 0;
        const bool pulse = minute < quarters * minutes && pulse_in(minute);
        put_entry(input, 0, pulse);
        put_entry(input, 1, boundary);
        if (refused("rounds", nuthatchbed_rounds(quarter_sheet, sizeof quarter_sheet, handheld, sizeof handheld, input, sizeof input,
                                                 by_rounds, sizeof by_rounds)) ||
            refused("scheduled", nuthatchbed_scheduled(quarter_sheet, sizeof quarter_sheet, meter, sizeof meter, input, sizeof input,
                                                       by_schedule, sizeof by_schedule, schedule, sizeof schedule)))
            return 1;
        if (memcmp(by_rounds, by_schedule, sizeof by_rounds) != 0 || memcmp(handheld, meter, sizeof handheld) != 0) {
            fprintf(stderr, "minute %u: the handheld and the meter differ\n", minute);
            return 1;
        }
        pulses += pulse;
        if (boundary)
            billed += entry_of(by_rounds, 1);
    }
    printf("%d quarters, %u pulses, %u billed\n", quarters, (unsigned)pulses, (unsigned)billed);
    return billed == pulses ? 0 : 1;
}
