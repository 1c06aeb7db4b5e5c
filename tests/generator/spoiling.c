/* Memories, rows and schedules that are spoilt: in length, in their cells, their Booleans or their wires. Rests on buffer.c. */
#include "generator/spoiling.h"

void spoil_length(struct random *random, struct buffer *buffer)
{
    static const uint16_t longer[] = {1, 2, 3, 4, 5, 8, 256, 512};
    const unsigned length = (unsigned)buffer->length;
    if (length == 0 || percent(random, 50))
        change_length(random, buffer, length + longer[below(random, 8)]);
    else
        change_length(random, buffer, below(random, length));
}

static void spoil_cells(struct random *random, struct buffer *memory)
{
    const unsigned cells = (unsigned)(memory->length / bytes_of_cell);
    if (cells == 0)
        return;
    for (unsigned times = between(random, 1, 2); times != 0; times--) {
        uint8_t *const cell = memory->bytes + bytes_of_cell * below(random, cells);
        const unsigned manner = below(random, 5);
        if (manner == 0)
            cell[0] = (uint8_t)between(random, 2, 255);
        else if (manner == 1)
            cell[0] ^= 1;
        else if (manner == 2)
            put_number(cell + 1, random_number(random));
        else if (manner == 3)
            put_number(cell + 1, UINT32_C(1) << below(random, 32));
        else
            cell[below(random, bytes_of_cell)] = (uint8_t)below(random, 3);
    }
}

static void spoil_input(struct random *random, struct buffer *input)
{
    const unsigned inputs = (unsigned)(input->length / bytes_of_number);
    if (inputs == 0)
        return;
    for (unsigned times = between(random, 1, 3); times != 0; times--) {
        uint8_t *const number = input->bytes + bytes_of_number * below(random, inputs);
        put_number(number, percent(random, 50) ? UINT32_C(2) << below(random, 31)
                                               : random_number(random));
    }
}

static void spoil_schedule(struct random *random, struct buffer *schedule)
{
    const unsigned wires = (unsigned)schedule->length;
    if (wires == 0)
        return;
    const unsigned first = below(random, wires);
    const unsigned second = below(random, wires);
    const uint8_t wire = schedule->bytes[first];
    switch (below(random, 4)) {
    case 0:
        schedule->bytes[second] = wire;
        break;
    case 1:
        schedule->bytes[first] =
            (uint8_t)(percent(random, 50) ? wires : between(random, wires, 255));
        break;
    default:
        schedule->bytes[first] = schedule->bytes[second];
        schedule->bytes[second] = wire;
        break;
    }
}

/* How one thing is spoilt: the length of a buffer, or what it holds. */
static const struct manner {
    enum role role;
    void (*spoil)(struct random *random, struct buffer *buffer);
} manners[] = {
    {role_memory, spoil_length},     {role_input, spoil_length},
    {role_output, spoil_length},     {role_schedule, spoil_length},
    {role_memory, spoil_cells},      {role_memory, spoil_cells},
    {role_input, spoil_input},       {role_input, spoil_input},
    {role_schedule, spoil_schedule}, {role_schedule, spoil_schedule},
};

static const struct manner *choose_manner(struct random *random)
{
    return &manners[below(random, sizeof manners / sizeof manners[0])];
}

/* Two spoils in one call try the order in which the refusals are looked for. */
static void spoil_some(struct random *random, struct buffers *buffers, bool schedule_too)
{
    for (unsigned times = percent(random, 70) ? 1 : 2; times != 0; times--) {
        const struct manner *manner = choose_manner(random);
        while (manner->role == role_schedule && !schedule_too)
            manner = choose_manner(random);
        manner->spoil(random, &buffers->of[manner->role]);
    }
}

void spoil_rows(struct random *random, struct buffers *buffers)
{
    spoil_some(random, buffers, true);
}

void spoil_memory_and_rows(struct random *random, struct buffers *buffers)
{
    spoil_some(random, buffers, false);
}

void spoil_contents(struct random *random, struct buffers *buffers)
{
    if (percent(random, 50))
        spoil_cells(random, &buffers->of[role_memory]);
    else
        spoil_input(random, &buffers->of[role_input]);
}
