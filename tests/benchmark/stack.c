/* The stack of a call: a thread makes it on a stack that was painted beforehand, and the paint shows how deep it got. Rests on POSIX
 * threads.
 */
#define _POSIX_C_SOURCE 200809L
#include "benchmark/stack.h"

#include <pthread.h>
#include <stdlib.h>
#include <string.h>

enum { stack_bytes = 1 << 18, paint = 0xa5 };

/* A call of a sheet, a tick of a board or a join of a pair; without any of them nothing is called. */
struct job {
    enum call call;
    struct sheet *sheet;
    struct board *board;
    struct pair *pair;
    uint32_t answer;
};

static void *run_job(void *data)
{
    struct job *const job = data;
    if (job->sheet != NULL)
        job->answer = call_of(&library, job->call, job->sheet);
    if (job->board != NULL)
        job->answer = tick_of(&library, job->board);
    if (job->pair != NULL)
        job->answer = join_of(&library, job->pair);
    return NULL;
}

static size_t depth_of(struct job *job)
{
    static _Alignas(64) uint8_t stack[stack_bytes];
    pthread_attr_t attributes;
    pthread_t thread;
    size_t untouched = 0;
    memset(stack, paint, sizeof stack);
    pthread_attr_init(&attributes);
    pthread_attr_setstack(&attributes, stack, sizeof stack);
    if (pthread_create(&thread, &attributes, run_job, job) != 0)
        exit(1);
    pthread_join(thread, NULL);
    pthread_attr_destroy(&attributes);
    while (untouched < sizeof stack && stack[untouched] == paint)
        untouched++;
    return sizeof stack - untouched;
}

static void try_job(size_t *deepest, struct job job)
{
    const size_t depth = depth_of(&job);
    if (depth > *deepest)
        *deepest = depth;
}

/* Without what the thread takes by itself. */
static size_t beyond_the_thread(size_t deepest)
{
    struct job nothing = {.call = calls};
    return deepest - depth_of(&nothing);
}

size_t stack_of_call(enum call call, struct group *groups, unsigned count)
{
    size_t deepest = 0;
    for (unsigned group = 0; group < count; group++) {
        for (unsigned index = 0; index < groups[group].count; index++)
            try_job(&deepest, (struct job){.call = call, .sheet = &groups[group].sheets[index]});
    }
    return beyond_the_thread(deepest);
}

size_t stack_of_tick(struct board *boards, unsigned count)
{
    size_t deepest = 0;
    for (unsigned index = 0; index < count; index++) {
        for (unsigned tick = 0; tick < boards[index].count; tick++)
            try_job(&deepest, (struct job){.call = call_tick, .board = &boards[index]});
    }
    return beyond_the_thread(deepest);
}

size_t stack_of_join(struct pairs *pairs, unsigned count)
{
    size_t deepest = 0;
    for (unsigned line = 0; line < count; line++) {
        for (unsigned index = 0; index < pairs[line].count; index++)
            try_job(&deepest, (struct job){.call = call_join, .pair = &pairs[line].pairs[index]});
    }
    return beyond_the_thread(deepest);
}
