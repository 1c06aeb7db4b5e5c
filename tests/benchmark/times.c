/* Times of the library and of the yardsticks in C: medians of samples taken in turn, on the same buffers in one run. Rests on the
 * clock of the process's own time, the evaluator and careful C.
 */
#define _POSIX_C_SOURCE 200809L
#include "benchmark/times.h"

#include "benchmark/careful/careful.h"
#include "evaluator/calls.h"

#include <stdio.h>
#include <stdlib.h>
#include <time.h>

enum { samples = 41, nanoseconds_of_sample = 2000000 };

const struct yardstick yardstick[yardsticks] = {{"evaluator", &evaluator}, {"careful", &careful}};

static volatile uint32_t sink;

static double now(void)
{
    struct timespec time;
    clock_gettime(CLOCK_PROCESS_CPUTIME_ID, &time);
    return (double)time.tv_sec * 1e9 + (double)time.tv_nsec;
}

static int by_size(const void *first, const void *second)
{
    const double one = *(const double *)first, other = *(const double *)second;
    return (one > other) - (one < other);
}

static double median(double *times)
{
    qsort(times, samples, sizeof *times, by_size);
    return times[samples / 2];
}

/* What a line times: a call of a group's sheets or, where there is one, the tick of a board, or the joins of pairs. */
struct timed {
    enum call call;
    const struct group *group;
    const struct board *board;
    const struct pairs *pairs;
};

/* The time of one call, over all sheets of a group in turn. Each sample begins from the buffers as the group has them, so that every
 * implementation goes through the same instants. */
static double time_of_calls(const struct implementation *implementation, enum call call, const struct group *group, unsigned turns)
{
    static struct group copy;
    copy = *group;
    const double start = now();
    for (unsigned turn = 0; turn < turns; turn++) {
        for (unsigned index = 0; index < copy.count; index++)
            sink += call_of(implementation, call, &copy.sheets[index]);
    }
    return (now() - start) / turns / copy.count;
}

/* The same of one tick; in a turn every sheet of the board has one. */
static double time_of_ticks(const struct implementation *implementation, const struct board *board, unsigned turns)
{
    static struct board copy;
    copy = *board;
    const double start = now();
    for (unsigned tick = 0; tick < turns * copy.count; tick++)
        sink += tick_of(implementation, &copy);
    return (now() - start) / turns / copy.count;
}

/* The same of one join. */
static double time_of_joins(const struct implementation *implementation, const struct pairs *pairs, unsigned turns)
{
    static struct pairs copy;
    copy = *pairs;
    const double start = now();
    for (unsigned turn = 0; turn < turns; turn++) {
        for (unsigned index = 0; index < copy.count; index++)
            sink += join_of(implementation, &copy.pairs[index]);
    }
    return (now() - start) / turns / copy.count;
}

static double time_of(const struct implementation *implementation, const struct timed *timed, unsigned turns)
{
    if (timed->pairs != NULL)
        return time_of_joins(implementation, timed->pairs, turns);
    if (timed->board != NULL)
        return time_of_ticks(implementation, timed->board, turns);
    return time_of_calls(implementation, timed->call, timed->group, turns);
}

void print_head_of_times(void)
{
    printf("| call      | sheet                  | ours (ns) |    C (ns) | ratio | which C   |\n|---|---|---|---|---|---|\n");
}

/* Sampled in turn, so that whatever else the machine does falls on all. A turn makes that many calls. */
static void print_line(const struct timed *timed, const char *name, unsigned calls_of_turn)
{
    double of_library[samples], of_yardstick[yardsticks][samples], times[yardsticks];
    const double once = time_of(yardstick[0].implementation, timed, 10) * calls_of_turn;
    const unsigned turns = (unsigned)(nanoseconds_of_sample / once) + 1;
    for (unsigned sample = 0; sample < samples; sample++) {
        of_library[sample] = time_of(&library, timed, turns);
        for (unsigned index = 0; index < yardsticks; index++)
            of_yardstick[index][sample] = time_of(yardstick[index].implementation, timed, turns);
    }
    unsigned fastest = 0;
    for (unsigned index = 0; index < yardsticks; index++) {
        times[index] = median(of_yardstick[index]);
        fastest = times[index] < times[fastest] ? index : fastest;
    }
    const double ours = median(of_library);
    printf("| %-9s | %-22s | %9.0f | %9.0f | %5.2f | %-9s |\n", rules_of[timed->call].name, name, ours, times[fastest],
           ours / times[fastest], yardstick[fastest].name);
}

void print_times(enum call call, const struct group *group)
{
    const struct timed timed = {.call = call, .group = group};
    print_line(&timed, group->name, group->count);
}

void print_times_of_ticks(const struct board *board)
{
    const struct timed timed = {.call = call_tick, .board = board};
    print_line(&timed, board->name, board->count);
}

void print_times_of_joins(const struct pairs *pairs)
{
    const struct timed timed = {.call = call_join, .pairs = pairs};
    print_line(&timed, pairs->name, pairs->count);
}
