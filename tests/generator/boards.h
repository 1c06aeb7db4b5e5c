/* Random boards of sheets that are correct by construction, the memories and rows that fit them, and damage done to them. Rests on sheets.h.
 */
#ifndef GENERATOR_BOARDS_H
#define GENERATOR_BOARDS_H

#include "generator/sheets.h"

enum { most_sheets = 8, bytes_of_length = 2 };

/* The sheets with what the generator knows of each, and their bytes. */
struct board {
    unsigned count;
    struct generator sheets[most_sheets];
    struct buffer bytes[most_sheets];
};

/* Where the part of a sheet lies in the memory or in a row. */
struct part {
    size_t start;
    size_t length;
};

void generate_board(struct random *random, struct board *board);

/* The bytes of the board: the count, and for each sheet the length and the sheet. */
void write_board(const struct board *board, struct buffer *bytes);

struct part part_of(const struct board *board, enum role role, unsigned sheet);

/* That of all parts. */
size_t length_of_parts(const struct board *board, enum role role);

/* A valid memory, part by part, and an input row. */
void fill_memories(struct random *random, const struct board *board, struct buffer *memory);
void fill_inputs(struct random *random, const struct board *board, struct buffer *input);

/* Where the length of a sheet lies in the bytes, and behind the last sheet where they end. */
size_t place_of_length(const struct board *board, unsigned sheet);

/* Damages the bytes of a sheet, or puts others in their place that overstep a limit or name what they may not. */
void spoil_sheet(struct random *random, struct board *board, unsigned sheet);

/* The bytes of the board with count, lengths, end or a sheet damaged; the board itself stays as it is. */
void damage_board(struct random *random, struct board *board, struct buffer *bytes);

#endif
