/* The regular sheets of the benchmark, one to a group: what comes next in them can be foreseen. Rests on nothing. */
#include "benchmark/sheets.h"

#include <string.h>

static void put(struct sheet *sheet, unsigned byte)
{
    if (sheet->length < NUTHATCHBED_SHEET_BYTES)
        sheet->bytes[sheet->length++] = (uint8_t)byte;
}

static void put_number(struct sheet *sheet, unsigned kind, unsigned number)
{
    put(sheet, kind);
    for (unsigned byte = 0; byte < 4; byte++)
        put(sheet, number >> 8 * byte & 255u);
}

static void put_named(struct sheet *sheet, unsigned kind, unsigned number)
{
    put(sheet, kind);
    put(sheet, number);
}

/* The one sheet of a group. */
static struct sheet *single(struct group *group, const char *name)
{
    group->name = name;
    group->count = 1;
    return &group->sheets[0];
}

enum { number_wire = 1, kept_number_wire = 3 };

/* Number inputs, wires of one type, and the first wires as outputs. */
static void put_header(struct sheet *sheet, unsigned inputs, unsigned wires, unsigned type, unsigned outputs)
{
    sheet->wires = wires;
    sheet->input_length = inputs * NUTHATCHBED_ENTRY_BYTES;
    sheet->output_length = outputs * NUTHATCHBED_ENTRY_BYTES;
    put(sheet, inputs);
    for (unsigned input = 0; input < inputs; input++)
        put(sheet, 1);
    put(sheet, wires);
    for (unsigned wire = 0; wire < wires; wire++)
        put(sheet, type);
    put(sheet, outputs);
    for (unsigned output = 0; output < outputs; output++)
        put(sheet, output);
    for (unsigned wire = 0; wire < wires; wire++)
        sheet->schedule[wire] = (uint8_t)wire;
}

/* All bytes of a sheet, in place of those that are there. */
static void take_bytes(struct sheet *sheet, const uint8_t *bytes, size_t length)
{
    memcpy(sheet->bytes, bytes, length);
    sheet->length = length;
}

void make_quarter(struct group *group)
{
    struct sheet *const sheet = single(group, "quarter sheet");
    static const uint8_t bytes[] = {2,  0, 0, 2, 1, 1, 2, 0, 1, 14, 3, 1, 8, 16, 0, 0, 0, 0,  2, 0,
                                    12, 3, 0, 1, 1, 0, 0, 0, 1, 0,  0, 0, 0, 16, 0, 0, 0, 0, 2, 0};
    put_header(sheet, 2, 2, number_wire, 2);
    take_bytes(sheet, bytes, sizeof bytes);
    sheet->input[0] = 1;
}

void make_chain(struct group *group)
{
    struct sheet *const sheet = single(group, "chain of 64 wires");
    put_header(sheet, 0, 64, number_wire, 1);
    for (unsigned wire = 0; wire < 63; wire++)
        put_named(sheet, 2, wire + 1);
    put_number(sheet, 1, 5);
    for (unsigned wire = 0; wire < 64; wire++)
        sheet->schedule[wire] = (uint8_t)(63 - wire);
}

void make_wide(struct group *group)
{
    struct sheet *const sheet = single(group, "64 wires, 2,000 bytes");
    put_header(sheet, 1, 64, number_wire, 16);
    for (unsigned wire = 0; wire < 64; wire++) {
        put(sheet, 12);
        put(sheet, 10);
        put_number(sheet, 16, wire);
        put_named(sheet, 2, wire);
        put_named(sheet, 3, 0);
        put(sheet, 8);
        if (wire > 0)
            put_named(sheet, 2, wire / 2);
        else
            put_number(sheet, 1, 7);
        put_number(sheet, 1, wire + 1);
        put(sheet, 9);
        put_number(sheet, 1, wire);
        put_named(sheet, 3, 0);
    }
    sheet->input[0] = 40;
}

static void put_tree(struct sheet *sheet, unsigned depth)
{
    if (depth == 0) {
        put_number(sheet, 1, 3);
        return;
    }
    put(sheet, 8);
    put_tree(sheet, depth - 1);
    put_tree(sheet, depth - 1);
}

void make_deep(struct group *group)
{
    struct sheet *const sheet = single(group, "deep, 4,000 bytes");
    put_header(sheet, 0, 9, number_wire, 9);
    for (unsigned wire = 0; wire < 9; wire++) {
        for (unsigned level = 0; level < 9; level++) {
            put(sheet, 8);
            put_number(sheet, 1, level);
        }
        put_tree(sheet, 6);
    }
}

void make_kept(struct group *group)
{
    struct sheet *const sheet = single(group, "64 kept counters");
    put_header(sheet, 1, 64, kept_number_wire, 16);
    for (unsigned wire = 0; wire < 64; wire++) {
        put(sheet, 8);
        put_named(sheet, 18, wire);
        put(sheet, 12);
        put(sheet, 10);
        put_named(sheet, 18, wire / 2);
        put_named(sheet, 3, 0);
        put_number(sheet, 1, wire + 1);
        put_number(sheet, 1, 0);
    }
    sheet->input[0] = 40;
}

static void put_less(struct sheet *sheet, unsigned first_kind, unsigned first, unsigned second_kind, unsigned second)
{
    put(sheet, 10);
    put_named(sheet, first_kind, first);
    put_named(sheet, second_kind, second);
}

void make_machines(struct group *group)
{
    struct sheet *const sheet = single(group, "32 counting machines");
    put_header(sheet, 2, 32, kept_number_wire, 16);
    for (unsigned wire = 0; wire < 32; wire++) {
        put(sheet, 19);
        put_less(sheet, 3, 0, 18, wire);
        put_less(sheet, 18, wire, 3, 1);
        put(sheet, 8);
        put_named(sheet, 18, wire);
        put_number(sheet, 1, wire + 1);
        put(sheet, 9);
        put_named(sheet, 18, wire);
        if (wire > 0)
            put_named(sheet, 2, wire / 2);
        else
            put_number(sheet, 1, 3);
    }
    sheet->input[0] = 40;
}

void make_relay(struct group *group)
{
    struct sheet *const sheet = single(group, "relay");
    static const uint8_t bytes[] = {2, 0,  0, 3, 0, 1, 0, 2, 1, 2,  15, 0, 3, 0,  14, 3, 1, 19, 6, 3, 0,
                                    2, 0,  4, 7, 3, 0, 2, 0, 9, 16, 0,  0, 0, 0,  2,  1, 1, 1,  0, 0, 0,
                                    8, 16, 0, 0, 0, 0, 2, 1, 1, 1,  0,  0, 0, 10, 1,  0, 0, 0,  0, 2, 1};
    put_header(sheet, 2, 3, number_wire, 2);
    take_bytes(sheet, bytes, sizeof bytes);
    sheet->input[0] = 1;
}
