/* What the tests of store files and of stores share: 2 by 2 files between guard bytes, and document 01's samples in them. */
#ifndef SAMPLES_H
#define SAMPLES_H

#include "sudoku.h"
#include "checks.h"

/* A 2 by 2 store file, and a store to write; lengths as docs/FORMAT.md has them. */
enum { FILE_2_BY_2 = 588, LINES_AT = 28, ROWS_AT = 308, COLUMNS_AT = 448, FOUR = 4 };

GUARDED(file, FILE_2_BY_2);
GUARDED(out, FOUR *LINE);
GUARDED(marks, FOUR);
GUARDED(row_out, 2 * LINE);
GUARDED(column_out, 2 * LINE);

static const uint8_t header_2_by_2[SUDOKU_HEADER_BYTES] = {
    0x02, 0x00, 0x02, 0x00, 0x1C, 0x00, 0x00, 0x00, 0x18, 0x01, 0x00, 0x00, 0x34, 0x01,
    0x00, 0x00, 0x8C, 0x00, 0x00, 0x00, 0xC0, 0x01, 0x00, 0x00, 0x8C, 0x00, 0x00, 0x00,
};

/* Sides that no store has, some of which have a product in 64 bits that one could have. */
#define HALF ((size_t)1 << 32)
static const size_t bad_sides[][2] = {
    {0, 0}, {0, 2}, {2, 0}, {1, 2}, {2, 1}, {1, 4}, {513, 2}, {2, 513}, {SIZE_MAX, SIZE_MAX}, {SIZE_MAX, 2}, {2, SIZE_MAX},
    {HALF, HALF}, {HALF + 2, HALF}, {HALF * (HALF / 2) + 2, 2}, {2, HALF * (HALF / 2) + 2},
};

enum { BAD_SIDES = sizeof bad_sides / sizeof bad_sides[0] };

/* What a refusal gives for eight numbers. */
static const uint64_t nothing[8] = {0};

/* A file of four empty captions. */
static inline void make_file(void)
{
    FILL(file);
    memset(file, 0, FILE_2_BY_2);
    memcpy(file, header_2_by_2, SUDOKU_HEADER_BYTES);
}

/* Whether that header, and nothing else, was written. */
static inline int wrote(const uint8_t *expected)
{
    return memcmp(file, expected, SUDOKU_HEADER_BYTES) == 0 && all_are(file + SUDOKU_HEADER_BYTES, FILE_2_BY_2 - SUDOKU_HEADER_BYTES)
        && INTACT(file);
}

/* Document 01's samples: 2 by 2 stores of zero lines, each hurt in its first byte, 3 at places 0 and 1, 12 at 2 and 3. */
static const struct sample {
    uint8_t hurt[FOUR], marks[FOUR];
    uint64_t check[8];
    uint32_t answer;
} samples[] = {
    {{0, 0, 0, 0}, {0, 0, 0, 0}, {2, 2, 4, 0, 0, 0, 0, 0}, SUDOKU_DONE},
    {{1, 0, 0, 8}, {1, 0, 0, 1}, {2, 2, 2, 2, 0, 0, 0, 0}, SUDOKU_DONE},
    {{3, 0, 0, 0}, {3, 0, 0, 0}, {2, 2, 3, 0, 0, 1, 0, 1}, SUDOKU_DONE},
    {{3, 12, 0, 1}, {2, 2, 0, 1}, {2, 2, 1, 1, 2, 0, 0, 1}, SUDOKU_DONE},
    {{3, 3, 0, 0}, {3, 3, 0, 0}, {2, 2, 2, 0, 0, 2, 0, 1}, SUDOKU_DONE},
    {{3, 3, 3, 0}, {3, 3, 3, 0}, {2, 2, 1, 0, 0, 3, 0, 1}, SUDOKU_DONE},
    {{3, 3, 3, 3}, {4, 4, 4, 4}, {2, 2, 0, 0, 0, 0, 4, 1}, SUDOKU_LEFT},
};

enum { SAMPLES = sizeof samples / sizeof samples[0] };

static inline void hurt_file(const struct sample *sample)
{
    make_file();
    for (size_t n = 0; n < FOUR; n++)
        file[LINES_AT + n * LINE] = sample->hurt[n];
}

/* Whether these are the sample's lines as repair gives them: zeros, or as found where the mark is 4. */
static inline int sample_lines(const struct sample *sample, const uint8_t *lines)
{
    for (size_t n = 0; n < FOUR; n++)
        if (lines[n * LINE] != (sample->marks[n] == SUDOKU_MARK_FAULTY ? sample->hurt[n] : 0)
            || !all_equal(lines + n * LINE + 1, LINE - 1, 0))
            return 0;
    return 1;
}

#endif
