/* The player of document 01 over the evaluator: reads standard input and prints the rows. It is what the proved player's output is
 * compared with. Rests on the evaluator.
 */
#include "evaluator/evaluator.h"

#include <stdio.h>

enum { most_input = 65536, most_memory = 5 * 64, most_row = 4 * 16, instants_without_inputs = 16 };

static uint8_t stream[most_input];

static int32_t number_at(const uint8_t *bytes)
{
    const uint32_t bits = bytes[0] | (uint32_t)bytes[1] << 8 | (uint32_t)bytes[2] << 16 | (uint32_t)bytes[3] << 24;
    return bits < UINT32_C(0x80000000) ? (int32_t)bits : -(int32_t)(UINT32_MAX - bits) - 1;
}

static void print_refusal(uint32_t answer)
{
    printf("refused %u %u\n", (unsigned)(answer / 65536), (unsigned)(answer % 65536));
}

/* One instant and its line; answers whether it was accepted. */
static int play_instant(const uint8_t *sheet, size_t length, uint8_t *memory, size_t cells, const uint8_t *row, size_t inputs,
                        size_t outputs, unsigned long instant)
{
    uint8_t output[most_row] = {0};
    const uint32_t answer = evaluator_rounds(sheet, length, memory, 5 * cells, row, 4 * inputs, output, 4 * outputs);
    if (answer >= 65536) {
        print_refusal(answer);
        return 0;
    }
    printf("%lu", instant);
    for (size_t index = 0; index < outputs; index++)
        printf(" %ld", (long)number_at(output + 4 * index));
    printf("\n");
    return 1;
}

static void play_rows(const uint8_t *sheet, size_t length, size_t cells, const uint8_t *rows, size_t left)
{
    const size_t inputs = sheet[0], wires = sheet[1 + inputs], outputs = sheet[2 + inputs + wires];
    uint8_t memory[most_memory] = {0};
    printf("sheet %zu %zu %zu %zu\n", inputs, wires, outputs, cells);
    evaluator_start(sheet, length, memory, 5 * cells);
    const size_t turns = inputs == 0 ? instants_without_inputs : left / (4 * inputs);
    for (size_t instant = 0; instant < turns; instant++) {
        if (!play_instant(sheet, length, memory, cells, rows + 4 * inputs * instant, inputs, outputs, (unsigned long)instant))
            return;
    }
    printf("left %zu\n", left - 4 * inputs * (inputs == 0 ? 0 : turns));
}

int main(void)
{
    const size_t got = fread(stream, 1, sizeof stream, stdin);
    const size_t length = got < 2 ? 0 : stream[0] + (size_t)256 * stream[1];
    if (got < 2 || got - 2 < length) {
        printf("short\n");
        return 0;
    }
    const uint32_t cells = evaluator_check(stream + 2, length);
    if (cells >= 65536)
        print_refusal(cells);
    else
        play_rows(stream + 2, length, cells, stream + 2 + length, got - 2 - length);
    return 0;
}
