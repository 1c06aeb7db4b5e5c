/* Guarded buffers: filled, looked after, and given to a call. Rests on the table of calls. */
#include "comparison/guarded.h"

#include <string.h>

#ifdef __SANITIZE_ADDRESS__
#include <sanitizer/asan_interface.h>
#else
#define ASAN_POISON_MEMORY_REGION(start, size) ((void)(start), (void)(size))
#define ASAN_UNPOISON_MEMORY_REGION(start, size) ((void)(start), (void)(size))
#endif

uint8_t *content(struct side *side, enum role role)
{
    return side->of[role].bytes + canary_bytes;
}

void guard(struct side *side, const struct buffers *buffers, uint8_t canary)
{
    side->canary = canary;
    for (unsigned role = 0; role < roles; role++) {
        const struct buffer *const from = &buffers->of[role];
        uint8_t *const bytes = side->of[role].bytes;
        side->of[role].length = from->length;
        memset(bytes, canary, canary_bytes);
        memcpy(bytes + canary_bytes, from->bytes, from->length);
        memset(bytes + canary_bytes + from->length, canary, canary_bytes);
        ASAN_POISON_MEMORY_REGION(bytes, canary_bytes);
        ASAN_POISON_MEMORY_REGION(bytes + canary_bytes + from->length,
                                  sizeof side->of[role].bytes - canary_bytes - from->length);
    }
}

bool canaries_live(struct side *side)
{
    bool live = true;
    for (unsigned role = 0; role < roles; role++) {
        const struct guarded *const guarded = &side->of[role];
        ASAN_UNPOISON_MEMORY_REGION(guarded->bytes, sizeof guarded->bytes);
        for (unsigned index = 0; index < canary_bytes; index++) {
            live = live && guarded->bytes[index] == side->canary &&
                   guarded->bytes[canary_bytes + guarded->length + index] == side->canary;
        }
    }
    return live;
}

uint32_t call_of(const struct implementation *implementation, enum call call, struct side *side)
{
    struct arguments arguments;
    for (unsigned role = 0; role < roles; role++) {
        arguments.of[role].bytes = content(side, role);
        arguments.of[role].length = side->of[role].length;
    }
    return run(implementation, call, &arguments);
}
