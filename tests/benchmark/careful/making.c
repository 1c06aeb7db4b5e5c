/* The maker of schedules of careful C. A wire that cannot be placed yet waits for one of the wires that it reads, and only when that one is
 * placed is it looked at again; the lowest of those that wait for nothing comes next. Rests on reading.c and loops.c.
 */
#include "benchmark/careful/careful.h"
#include "benchmark/careful/internal.h"

#include <string.h>

/* The wires that are still to be placed, by what they wait for. */
struct queue {
    const uint64_t *reads;        /* of each wire */
    uint64_t waiting[most_wires]; /* the wires that wait for this one */
    uint64_t placed;
    uint64_t ready; /* wait for nothing and are not placed */
    uint8_t depths[most_wires]; /* of the placed ones */
    unsigned depth;             /* the greatest of them */
};

static inline void make_wait(struct queue *queue, unsigned wire)
{
    const uint64_t missing = queue->reads[wire] & ~queue->placed;
    if (missing == 0)
        queue->ready |= UINT64_C(1) << wire;
    else
        queue->waiting[lowest_of(missing)] |= UINT64_C(1) << wire;
}

/* What a wire reads is placed before it, so that its depth is known. */
static inline void note_depth(struct queue *queue, unsigned wire)
{
    unsigned depth = 0;
    for (uint64_t left = queue->reads[wire]; left != 0; left &= left - 1) {
        const unsigned read = queue->depths[lowest_of(left)];
        depth = depth < read ? read : depth;
    }
    depth++;
    queue->depths[wire] = (uint8_t)depth;
    queue->depth = queue->depth < depth ? depth : queue->depth;
}

/* Answers how many wires could be placed. */
static unsigned place_wires(struct queue *queue, uint8_t *list)
{
    unsigned count = 0;
    while (queue->ready != 0) {
        const unsigned wire = lowest_of(queue->ready);
        list[count++] = (uint8_t)wire;
        queue->ready &= queue->ready - 1;
        queue->placed |= UINT64_C(1) << wire;
        note_depth(queue, wire);
        for (uint64_t left = queue->waiting[wire]; left != 0; left &= left - 1)
            make_wait(queue, lowest_of(left));
    }
    return count;
}

uint32_t careful_schedule(const uint8_t *sheet, size_t sheet_length, uint8_t *list, size_t list_length)
{
    struct program program;
    struct queue queue;
    uint8_t made[most_wires];
    const uint32_t refused = read_program_and_reads(&program, sheet, sheet_length);
    if (refused != 0)
        return refused;
    if (list_length != program.wires)
        return refusal(17, 0);
    queue.reads = program.wire_reads;
    queue.placed = queue.ready = queue.depth = 0;
    memset(queue.waiting, 0, program.wires * sizeof queue.waiting[0]);
    for (unsigned wire = 0; wire < program.wires; wire++)
        make_wait(&queue, wire);
    /* Where wires remain that could not be placed, one of them reaches itself, and no other wire does. */
    if (place_wires(&queue, made) != program.wires)
        return refusal(21, lowest_looping(queue.reads, ~queue.placed));
    memcpy(list, made, program.wires);
    return queue.depth;
}
