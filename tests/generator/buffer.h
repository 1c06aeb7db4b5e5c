/* A buffer of bytes that can grow, and one buffer for each role that a call's arguments have. Rests on the table of calls for the
 * roles and on random.h for rubbish.
 */
#ifndef GENERATOR_BUFFER_H
#define GENERATOR_BUFFER_H

#include "common/calls.h"
#include "generator/random.h"

/* A board of eight of the longest sheets has 32,785 bytes, and damage makes it longer. */
enum { largest_buffer = 40960, bytes_of_number = 4, bytes_of_cell = 5 };

struct buffer {
    size_t length;
    uint8_t bytes[largest_buffer];
};

struct buffers {
    struct buffer of[roles];
};

void copy_buffer(struct buffer *to, const struct buffer *from);
void copy_buffers(struct buffers *to, const struct buffers *from);
bool same_bytes(const struct buffer *first, const struct buffer *second);

void append(struct buffer *buffer, unsigned byte);
void append_number(struct buffer *buffer, uint32_t number);
void append_buffer(struct buffer *to, const struct buffer *from);
void put_number(uint8_t *bytes, uint32_t number);

void fill_with_rubbish(struct random *random, struct buffer *buffer, size_t length);

/* A new length keeps the bytes that were there and adds rubbish. */
void change_length(struct random *random, struct buffer *buffer, size_t length);

#endif
