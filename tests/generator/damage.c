/* Sheets that are damaged: bytes changed, cut, put in or left out, counts that lie, other types, bytes at random. Rests on sheets.c for a
 * sheet and where its header ends.
 */
#include "generator/damage.h"

#include <string.h>

static unsigned strange_byte(struct random *random)
{
    static const uint8_t strange[] = {0, 1, 2, 3, 4, 16, 17, 18, 19, 20, 63, 64, 65, 128, 255};
    if (percent(random, 30))
        return strange[below(random, sizeof strange)];
    return below(random, percent(random, 70) ? 21 : 256);
}

static void insert_byte(struct buffer *buffer, size_t place, unsigned byte)
{
    memmove(buffer->bytes + place + 1, buffer->bytes + place, buffer->length - place);
    buffer->bytes[place] = (uint8_t)byte;
    buffer->length++;
}

static void delete_byte(struct buffer *buffer, size_t place)
{
    buffer->length--;
    memmove(buffer->bytes + place, buffer->bytes + place + 1, buffer->length - place);
}

static void damage_once(struct random *random, struct buffer *sheet)
{
    if (sheet->length == 0)
        return;
    const unsigned length = (unsigned)sheet->length;
    /* The header is short, so places near the front are taken more often. */
    const unsigned reach = percent(random, 40) && length > 12 ? 12 : length;
    const unsigned place = below(random, reach);
    const unsigned manner = below(random, 100);
    if (manner < 25)
        sheet->bytes[place] = (uint8_t)strange_byte(random);
    else if (manner < 40)
        sheet->bytes[place] ^= (uint8_t)(1u << below(random, 8));
    else if (manner < 55)
        sheet->bytes[place] = (uint8_t)(sheet->bytes[place] + (percent(random, 50) ? 1 : 255));
    else if (manner < 65)
        sheet->length = place;
    else if (manner < 75)
        sheet->length -= 1 + below(random, length < 6 ? length : 6);
    else if (manner < 84)
        insert_byte(sheet, place, strange_byte(random));
    else if (manner < 92)
        delete_byte(sheet, place);
    else
        append(sheet, strange_byte(random));
}

/* A header whose counts lie, with the rest as it was. */
static void damage_count(struct generator *generator)
{
    static const uint8_t lies[] = {0, 17, 18, 65, 66, 128, 255};
    const unsigned wires_place = 1 + generator->plan.inputs;
    const unsigned outputs_place = wires_place + 1 + generator->plan.wires;
    const unsigned places[] = {0, wires_place, outputs_place};
    struct random *const random = generator->random;
    generator->sheet->bytes[places[below(random, 3)]] = lies[below(random, sizeof lies)];
}

/* Another type of an input or a wire: for an input kept is none, and a wire may become kept or be so no more. */
static void damage_type(struct generator *generator)
{
    static const uint8_t others[] = {0, 1, 2, 2, 3, 3, 4, 5, 255};
    struct random *const random = generator->random;
    const unsigned inputs = generator->plan.inputs;
    const unsigned index = below(random, inputs + generator->plan.wires);
    generator->sheet->bytes[index < inputs ? 1 + index : 2 + index] = others[below(random, sizeof others)];
}

static void generate_random_bytes(struct random *random, struct buffer *sheet)
{
    const unsigned length = below(random, 40);
    sheet->length = 0;
    while (sheet->length < length)
        append(sheet, strange_byte(random));
}

/* A good header before random bytes gets the reading as far as the expressions. */
static void generate_random_expressions(struct generator *generator)
{
    struct random *const random = generator->random;
    struct buffer *const sheet = generator->sheet;
    const unsigned length = below(random, 30);
    sheet->length = 1 + generator->plan.inputs + 1 + generator->plan.wires + 1 + generator->plan.outputs;
    for (unsigned index = 0; index < length; index++)
        append(sheet, below(random, percent(random, 90) ? 20 : 256));
}

void damage_sheet(struct generator *generator)
{
    struct random *const random = generator->random;
    struct buffer *const sheet = generator->sheet;
    const unsigned manner = below(random, 100);
    if (manner < 52) {
        for (unsigned times = percent(random, 70) ? 1 : between(random, 2, 4); times != 0; times--)
            damage_once(random, sheet);
    } else if (manner < 62) {
        damage_type(generator);
    } else if (manner < 70) {
        damage_count(generator);
    } else if (manner < 80) {
        generate_random_bytes(random, sheet);
    } else if (manner < 93) {
        generate_random_expressions(generator);
    } else if (manner < 96) {
        sheet->length = 0;
    } else {
        change_length(random, sheet, between(random, longest_sheet - 1, longest_sheet + 4));
    }
}
