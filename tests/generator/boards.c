/* Boards of random sheets: generated, written as bytes, given memories and rows, and damaged at their count, their lengths, their end or in
 * one sheet. Rests on sheets.c and rows.c for each sheet and on damage.c.
 */
#include "generator/boards.h"

#include "generator/damage.h"
#include "generator/rows.h"

/* ---- Boards that pass ---- */

/* A sheet of a board is ticked often, so that more of them than by themselves have loops at some ticks and none at others. */
static bool generate_sheet_of_board(struct random *random, struct board *board, unsigned sheet)
{
    struct generator *const generator = &board->sheets[sheet];
    struct plan *const plan = &generator->plan;
    prepare_generator(generator, random, &board->bytes[sheet]);
    if (percent(random, 25)) {
        plan->reading = reading_by_input;
        plan->inputs += plan->inputs == 0;
    }
    return generate_sheet(generator);
}

void generate_board(struct random *random, struct board *board)
{
    board->count = between(random, 1, most_sheets);
    for (unsigned sheet = 0; sheet < board->count; sheet++) {
        while (!generate_sheet_of_board(random, board, sheet))
            continue;
    }
}

void write_board(const struct board *board, struct buffer *bytes)
{
    bytes->length = 0;
    append(bytes, board->count);
    for (unsigned sheet = 0; sheet < board->count; sheet++) {
        append(bytes, board->bytes[sheet].length & 255);
        append(bytes, (unsigned)(board->bytes[sheet].length >> 8));
        append_buffer(bytes, &board->bytes[sheet]);
    }
}

size_t place_of_length(const struct board *board, unsigned sheet)
{
    size_t place = 1;
    for (unsigned before = 0; before < sheet; before++)
        place += bytes_of_length + board->bytes[before].length;
    return place;
}

/* ---- Parts of memory and rows ---- */

static size_t length_of_part(const struct generator *sheet, enum role role)
{
    if (role == role_memory)
        return (size_t)bytes_of_cell * sheet->cells;
    return (size_t)bytes_of_number * (role == role_input ? sheet->plan.inputs : sheet->plan.outputs);
}

struct part part_of(const struct board *board, enum role role, unsigned sheet)
{
    struct part part = {0, length_of_part(&board->sheets[sheet], role)};
    for (unsigned before = 0; before < sheet; before++)
        part.start += length_of_part(&board->sheets[before], role);
    return part;
}

size_t length_of_parts(const struct board *board, enum role role)
{
    const struct part last = part_of(board, role, board->count - 1);
    return last.start + last.length;
}

void fill_memories(struct random *random, const struct board *board, struct buffer *memory)
{
    struct buffer part;
    memory->length = 0;
    for (unsigned sheet = 0; sheet < board->count; sheet++) {
        fill_memory(random, &board->sheets[sheet], &part);
        append_buffer(memory, &part);
    }
}

void fill_inputs(struct random *random, const struct board *board, struct buffer *input)
{
    struct buffer part;
    input->length = 0;
    for (unsigned sheet = 0; sheet < board->count; sheet++) {
        fill_input(random, board->sheets[sheet].input_types, board->sheets[sheet].plan.inputs, &part);
        append_buffer(input, &part);
    }
}

/* ---- Damage ---- */

static void damage_count(struct random *random, const struct board *board, struct buffer *bytes)
{
    const unsigned counts[] = {0, most_sheets, most_sheets + 1, 255, board->count - 1, board->count + 1, below(random, 256)};
    bytes->bytes[0] = (uint8_t)counts[below(random, sizeof counts / sizeof counts[0])];
}

/* One byte of one length: by one, by one bit, or to anything. */
static void damage_length(struct random *random, const struct board *board, struct buffer *bytes)
{
    uint8_t *const byte = bytes->bytes + place_of_length(board, below(random, board->count)) + below(random, bytes_of_length);
    switch (below(random, 4)) {
    case 0:
        *byte = (uint8_t)(*byte + 1);
        break;
    case 1:
        *byte = (uint8_t)(*byte - 1);
        break;
    case 2:
        *byte ^= (uint8_t)(1u << below(random, 8));
        break;
    default:
        *byte = (uint8_t)below(random, 256);
        break;
    }
}

/* Cut anywhere, at a length, or a little; or made longer. */
static void damage_end(struct random *random, const struct board *board, struct buffer *bytes)
{
    const unsigned length = (unsigned)bytes->length;
    switch (below(random, 4)) {
    case 0:
        bytes->length = below(random, length);
        break;
    case 1:
        bytes->length = place_of_length(board, below(random, board->count)) + below(random, bytes_of_length + 1);
        break;
    case 2:
        bytes->length = length - between(random, 1, 3);
        break;
    default:
        change_length(random, bytes, length + between(random, 1, 4));
        break;
    }
}

void spoil_sheet(struct random *random, struct board *board, unsigned sheet)
{
    struct generator other;
    if (percent(random, 80)) {
        damage_sheet(&board->sheets[sheet]);
        return;
    }
    do
        prepare_generator(&other, random, &board->bytes[sheet]);
    while (generate_sheet(&other));
}

void damage_board(struct random *random, struct board *board, struct buffer *bytes)
{
    static void (*const damages[])(struct random *, const struct board *, struct buffer *) = {damage_count, damage_length, damage_end};
    const unsigned sheet = below(random, board->count);
    const bool in_sheet = percent(random, 60);
    struct buffer sound;
    copy_buffer(&sound, &board->bytes[sheet]);
    if (in_sheet)
        spoil_sheet(random, board, sheet);
    /* The length says what the spoilt sheet has. Where count, lengths or end are damaged too, the order of the refusals is tried. */
    write_board(board, bytes);
    if (!in_sheet || percent(random, 15))
        damages[below(random, sizeof damages / sizeof damages[0])](random, board, bytes);
    copy_buffer(&board->bytes[sheet], &sound);
}
