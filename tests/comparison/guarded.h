/* The buffers that one implementation is given: copies with canaries on both sides, which AddressSanitizer guards too where it is on.
 * Rests on the generator's buffers.
 */
#ifndef COMPARISON_GUARDED_H
#define COMPARISON_GUARDED_H

#include "generator/buffer.h"

enum { canary_bytes = 16 };

struct guarded {
    _Alignas(8) uint8_t bytes[canary_bytes + largest_buffer + canary_bytes];
    size_t length;
};

struct side {
    struct guarded of[roles];
    uint8_t canary;
};

uint8_t *content(struct side *side, enum role role);

void guard(struct side *side, const struct buffers *buffers, uint8_t canary);

/* Takes the guard away and answers whether no canary was changed. */
bool canaries_live(struct side *side);

/* Makes a call with these buffers. */
uint32_t call_of(const struct implementation *implementation, enum call call, struct side *side);

#endif
