/* Buffers of bytes: copied, compared, appended to, filled with rubbish. Rests on random.c. */
#include "generator/buffer.h"

#include <string.h>

void copy_buffer(struct buffer *to, const struct buffer *from)
{
    to->length = from->length;
    memcpy(to->bytes, from->bytes, from->length);
}

void copy_buffers(struct buffers *to, const struct buffers *from)
{
    for (unsigned role = 0; role < roles; role++)
        copy_buffer(&to->of[role], &from->of[role]);
}

bool same_bytes(const struct buffer *first, const struct buffer *second)
{
    return first->length == second->length &&
           memcmp(first->bytes, second->bytes, first->length) == 0;
}

void append(struct buffer *buffer, unsigned byte)
{
    buffer->bytes[buffer->length++] = (uint8_t)byte;
}

void put_number(uint8_t *bytes, uint32_t number)
{
    for (unsigned index = 0; index < bytes_of_number; index++)
        bytes[index] = (uint8_t)(number >> 8 * index & 255u);
}

void append_number(struct buffer *buffer, uint32_t number)
{
    put_number(buffer->bytes + buffer->length, number);
    buffer->length += bytes_of_number;
}

void append_buffer(struct buffer *to, const struct buffer *from)
{
    memcpy(to->bytes + to->length, from->bytes, from->length);
    to->length += from->length;
}

void fill_with_rubbish(struct random *random, struct buffer *buffer, size_t length)
{
    buffer->length = 0;
    while (buffer->length < length)
        append(buffer, (unsigned)(next_random(random) >> 56));
}

void change_length(struct random *random, struct buffer *buffer, size_t length)
{
    while (buffer->length < length)
        append(buffer, (unsigned)(next_random(random) >> 56));
    buffer->length = length;
}
