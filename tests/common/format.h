/* The format in numbers, for the implementations in C: the limits, the type bytes, the kinds, a refusal with its place as one number, and
 * the four bytes of a number. Rests on nothing but the documents 01 and 02.
 */
#ifndef COMMON_FORMAT_H
#define COMMON_FORMAT_H

#include <stdbool.h>
#include <stddef.h>
#include <stdint.h>

enum {
    longest_sheet = 4096,
    most_inputs = 16,
    most_wires = 64,
    most_outputs = 16,
    most_cells = 64,
    deepest_level = 16,
    highest_input_type = 1,
    highest_wire_type = 3,
    bytes_of_number = 4,
    bytes_of_cell = 5,
    most_sheets = 8,
    bytes_of_length = 2
};

enum kind {
    kind_boolean = 0,
    kind_number = 1,
    kind_wire = 2,
    kind_input = 3,
    kind_not = 4,
    kind_negate = 5,
    kind_and = 6,
    kind_or = 7,
    kind_add = 8,
    kind_subtract = 9,
    kind_less = 10,
    kind_equal = 11,
    kind_if = 12,
    kind_present = 13,
    kind_reset = 14,
    kind_boolean_pre = 15,
    kind_number_pre = 16,
    kind_fby = 17,
    kind_last = 18,
    kind_machine = 19,
    kinds
};

/* A type byte: 0 and 2 are Boolean, 1 and 3 number, and the upper two are those of kept wires. */
static inline unsigned plain_type(unsigned type_byte)
{
    return type_byte & 1;
}

static inline bool is_kept(unsigned type_byte)
{
    return type_byte > 1;
}

static inline uint32_t refusal(uint32_t number, size_t place)
{
    return number * 65536u + (uint32_t)place;
}

static inline uint32_t read_number(const uint8_t *bytes)
{
    return (uint32_t)bytes[0] | (uint32_t)bytes[1] << 8 | (uint32_t)bytes[2] << 16 | (uint32_t)bytes[3] << 24;
}

static inline void write_number(uint8_t *bytes, uint32_t number)
{
    bytes[0] = (uint8_t)(number & 255u);
    bytes[1] = (uint8_t)(number >> 8 & 255u);
    bytes[2] = (uint8_t)(number >> 16 & 255u);
    bytes[3] = (uint8_t)(number >> 24);
}

#endif
