/*
 * Store files from C: headers and openings by hand, document 01's samples as files that are checked, refusals, guard bytes, and a file
 * of the greatest size with the stack that its check takes. Prints what failed; the exit status is 1 if anything did.
 */
#define _POSIX_C_SOURCE 200809L
#include <stdio.h>
#include <stdlib.h>
#include <string.h>

#include "sudoku.h"
#include "checks.h"
#include "samples.h"
#include "stack.h"

/* 70 * 512 * 512 is hex 1180000, 70 * 512 is 8C00. */
static const uint8_t header_512_by_512[SUDOKU_HEADER_BYTES] = {
    0x00, 0x02, 0x00, 0x02, 0x1C, 0x00, 0x00, 0x00, 0x00, 0x00, 0x18, 0x01, 0x1C, 0x00,
    0x18, 0x01, 0x00, 0x8C, 0x00, 0x00, 0x1C, 0x8C, 0x18, 0x01, 0x00, 0x8C, 0x00, 0x00,
};
/* The lines have 420 bytes, the row table 140 from 448 on, the column table 210 from 588 on. */
static const uint8_t header_2_by_3[SUDOKU_HEADER_BYTES] = {
    0x02, 0x00, 0x03, 0x00, 0x1C, 0x00, 0x00, 0x00, 0xA4, 0x01, 0x00, 0x00, 0xC0, 0x01,
    0x00, 0x00, 0x8C, 0x00, 0x00, 0x00, 0x4C, 0x02, 0x00, 0x00, 0xD2, 0x00, 0x00, 0x00,
};

/* Document 01's line with place 511 set alone, from byte 63 on. */
static const uint8_t end_of_511[7] = {0x80, 0xC7, 0x6F, 0x66, 0x56, 0x09, 0x00};

/* The answer of writing a header, into a file that holds the filling before. */
static uint32_t header(size_t rows, size_t columns, size_t length)
{
    FILL(file);
    return sudoku_write_header(rows, columns, file, length);
}

static void headers(void)
{
    CHECK(header(2, 2, SUDOKU_HEADER_BYTES) == SUDOKU_DONE && wrote(header_2_by_2));
    CHECK(header(2, 3, SUDOKU_HEADER_BYTES) == SUDOKU_DONE && wrote(header_2_by_3));
    CHECK(header(512, 512, SUDOKU_HEADER_BYTES) == SUDOKU_DONE && wrote(header_512_by_512));
    for (size_t length = 0; length <= FILE_2_BY_2; length++)
        if (length != SUDOKU_HEADER_BYTES)
            CHECK(header(2, 2, length) == SUDOKU_BUFFER && UNTOUCHED(file));
    CHECK(sudoku_write_header(2, 2, NULL, 0) == SUDOKU_BUFFER);
    for (size_t i = 0; i < BAD_SIDES; i++) {
        CHECK(header(bad_sides[i][0], bad_sides[i][1], SUDOKU_HEADER_BYTES) == SUDOKU_SIDES && UNTOUCHED(file));
        CHECK(header(bad_sides[i][0], bad_sides[i][1], 27) == SUDOKU_SIDES && UNTOUCHED(file));
    }
}

/* Eight numbers that are returned, between guard words: the struct of an opening, or of a check. */
static union {
    uint64_t numbers[8];
    struct sudoku_layout layout;
    struct sudoku_check check;
} given_all[3];

static void unset_given(void)
{
    for (size_t i = 0; i < 24; i++)
        given_all[i / 8].numbers[i % 8] = UNSET;
}

/* Whether the last call set the eight numbers to these, and nothing beside them. */
static int gave(const uint64_t *expected)
{
    for (size_t i = 0; i < 8; i++)
        if (given_all[0].numbers[i] != UNSET || given_all[1].numbers[i] != expected[i] || given_all[2].numbers[i] != UNSET)
            return 0;
    return 1;
}

/* Whether so many bytes are opened with this answer: the 2 by 2 layout after 0, zeros after a refusal. */
static int opens(const uint8_t *bytes, size_t length, uint32_t answer)
{
    static const uint64_t layout[8] = {2, 2, LINES_AT, 280, ROWS_AT, 140, COLUMNS_AT, 140};

    unset_given();
    return sudoku_open_file(bytes, length, &given_all[1].layout) == answer && gave(answer == SUDOKU_DONE ? layout : nothing);
}

/* What a header with this byte changed is refused with: 2 if a side is outside 2 to 512, otherwise 4, whatever the file's length. */
static uint32_t changed_header_answer(void)
{
    const unsigned rows = file[0] + 256u * file[1], columns = file[2] + 256u * file[3];

    return rows < 2 || rows > 512 || columns < 2 || columns > 512 ? SUDOKU_SIDES : SUDOKU_CONTENTS;
}

static void opening(void)
{
    unsigned right = 0;

    make_file();
    CHECK(opens(file, FILE_2_BY_2, SUDOKU_DONE) && opens(NULL, 0, SUDOKU_SHORT_FILE));
    for (size_t length = 0; length < FILE_2_BY_2; length++)
        CHECK(opens(file, length, length < SUDOKU_HEADER_BYTES ? SUDOKU_SHORT_FILE : SUDOKU_CONTENTS));
    CHECK(opens(file, FILE_2_BY_2 + 1, SUDOKU_CONTENTS));
    /* Every other value of each byte of the header, in a whole file and in one that is cut off. */
    for (size_t at = 0; at < SUDOKU_HEADER_BYTES; at++)
        for (unsigned other = 1; other < 256; other++) {
            file[at] ^= (uint8_t)other;
            right += opens(file, FILE_2_BY_2, changed_header_answer()) && opens(file, SUDOKU_HEADER_BYTES, changed_header_answer())
                && opens(file, SUDOKU_HEADER_BYTES - 1, SUDOKU_SHORT_FILE);
            file[at] ^= (uint8_t)other;
        }
    CHECK(right == SUDOKU_HEADER_BYTES * 255);
    /* What the lines hold does not matter. */
    memset(file + SUDOKU_HEADER_BYTES, FILLING, FILE_2_BY_2 - SUDOKU_HEADER_BYTES);
    CHECK(opens(file, FILE_2_BY_2, SUDOKU_DONE) && INTACT(file));
}

static void bytes_needed(void)
{
    make_file();
    CHECK(sudoku_bytes_needed(NULL, 0) == 28 && sudoku_bytes_needed(file, 27) == 28);
    CHECK(sudoku_bytes_needed(file, 28) == FILE_2_BY_2 + 1 && sudoku_bytes_needed(file, 100) == FILE_2_BY_2 + 1);
    CHECK(sudoku_bytes_needed(file, FILE_2_BY_2 - 1) == FILE_2_BY_2 + 1 && sudoku_bytes_needed(file, FILE_2_BY_2) == 28);
    CHECK(sudoku_bytes_needed(file, FILE_2_BY_2 + 1) == FILE_2_BY_2 + 1);
    CHECK(sudoku_bytes_needed(header_2_by_3, 28) == 798 + 1 && sudoku_bytes_needed(header_512_by_512, 28) == 18421788 + 1);
    for (size_t at = 0; at < SUDOKU_HEADER_BYTES; at++) {
        file[at] ^= 4;
        CHECK(sudoku_bytes_needed(file, 28) == 28 && sudoku_bytes_needed(file, FILE_2_BY_2) == 28);
        file[at] ^= 4;
    }
}

/* The lengths of all that a check writes. */
struct lengths {
    size_t file, out, marks, row_out, column_out;
};

static const struct lengths right_lengths = {FILE_2_BY_2, FOUR * LINE, FOUR, 2 * LINE, 2 * LINE};

static uint32_t check_sized(struct lengths l)
{
    FILL(out);
    FILL(marks);
    FILL(row_out);
    FILL(column_out);
    unset_given();
    return sudoku_check_file(file, l.file, out, l.out, marks, l.marks, row_out, l.row_out, column_out, l.column_out,
                             &given_all[1].check);
}

/* Whether a check is refused so: nothing is written, and all eight numbers are 0. */
static int check_refused(struct lengths l, uint32_t answer)
{
    return check_sized(l) == answer && gave(nothing) && UNTOUCHED(out) && UNTOUCHED(marks) && UNTOUCHED(row_out)
        && UNTOUCHED(column_out) && INTACT(file);
}

/* From the last refusal of the list up: each is given though those after it fit too. */
static void check_refusals(void)
{
    struct lengths l = right_lengths;

    make_file();
    l.marks++;
    CHECK(check_refused(l, SUDOKU_BUFFER));
    l.out--;
    CHECK(check_refused(l, SUDOKU_BUFFER));
    l.column_out = 0;
    CHECK(check_refused(l, SUDOKU_TABLE));
    l.row_out++;
    CHECK(check_refused(l, SUDOKU_TABLE));
    file[4] ^= 1;
    CHECK(check_refused(l, SUDOKU_CONTENTS));
    l.file--;
    CHECK(check_refused(l, SUDOKU_CONTENTS));
    file[0] = 1;
    CHECK(check_refused(l, SUDOKU_SIDES));
    l.file = SUDOKU_HEADER_BYTES - 1;
    CHECK(check_refused(l, SUDOKU_SHORT_FILE));
    make_file();
    unset_given();
    CHECK(sudoku_check_file(NULL, 0, NULL, 0, NULL, 0, NULL, 0, NULL, 0, &given_all[1].check) == SUDOKU_SHORT_FILE && gave(nothing));
}

/* Each length alone: more, less, and none. */
static void check_lengths(void)
{
    struct lengths l = right_lengths;

    make_file();
#define REFUSED_ALONE(length, answer)               \
    do {                                            \
        struct lengths one = right_lengths;         \
        one.length++;                               \
        CHECK(check_refused(one, answer));          \
        one.length -= 2;                            \
        CHECK(check_refused(one, answer));          \
        one.length = 0;                             \
        CHECK(check_refused(one, answer));          \
    } while (0)
    REFUSED_ALONE(out, SUDOKU_BUFFER);
    REFUSED_ALONE(marks, SUDOKU_BUFFER);
    REFUSED_ALONE(row_out, SUDOKU_TABLE);
    REFUSED_ALONE(column_out, SUDOKU_TABLE);
    l.file++;
    CHECK(check_refused(l, SUDOKU_CONTENTS));
}

static void checking(void)
{
    static uint8_t before[FILE_2_BY_2];
    static const uint64_t replaced[8] = {2, 2, 4, 0, 0, 0, 0, 0};

    for (size_t i = 0; i < SAMPLES; i++) {
        hurt_file(&samples[i]);
        memcpy(before, file, sizeof before);
        CHECK(check_sized(right_lengths) == samples[i].answer && gave(samples[i].check));
        CHECK(sample_lines(&samples[i], out) && memcmp(marks, samples[i].marks, FOUR) == 0);
        CHECK(all_equal(row_out, 2 * LINE, 0) && all_equal(column_out, 2 * LINE, 0));
        CHECK(INTACT(out) && INTACT(marks) && INTACT(row_out) && INTACT(column_out));
        CHECK(memcmp(file, before, sizeof before) == 0 && INTACT(file));
    }
    /* Line 0 replaced by the line with place 511: every line is correct, and the tables differ. */
    make_file();
    memcpy(file + LINES_AT + 63, end_of_511, sizeof end_of_511);
    CHECK(check_sized(right_lengths) == SUDOKU_DIFFERS && gave(replaced) && all_equal(marks, FOUR, 0));
    CHECK(memcmp(out, file + LINES_AT, FOUR * LINE) == 0 && all_equal(row_out, 2 * LINE, 0));
}

/* A store file of the greatest size, all captions empty, and its repair. */
enum { SIDE = SUDOKU_GREATEST_SIDE, BIG = SIDE * SIDE };

static uint8_t big_file[SUDOKU_FILE_BYTES(SIDE, SIDE)], big_repaired[sizeof big_file], big_marks[SUDOKU_MARKS_BYTES(SIDE, SIDE)];
static struct sudoku_store big_store, big_out;
static struct sudoku_check big_check;
static uint32_t big_answer;

static void check_big(void)
{
    big_answer = sudoku_store_check(big_file, sizeof big_file, &big_out, big_marks, &big_check);
}

static void open_big(void)
{
    struct sudoku_layout layout;

    big_answer = sudoku_open_file(big_file, sizeof big_file, &layout);
}

static void ask_big(void)
{
    big_answer = sudoku_bytes_needed(big_file, SUDOKU_HEADER_BYTES) == sizeof big_file + 1 ? SUDOKU_DONE : SUDOKU_CONTENTS;
}

static void head_big(void)
{
    big_answer = sudoku_write_header(SIDE, SIDE, big_file, SUDOKU_HEADER_BYTES);
}

/*
 * A bit of each 97th line, 2,703 of them, and two of each 2,003rd, 131 of them, which share no row and no column. Lines 0 and 194,291
 * are both: three bits, and so rebuilt too.
 */
static void hurt_big(void)
{
    for (size_t n = 0; n < BIG; n += 97)
        sudoku_store_line(&big_store, n)[n % SUDOKU_DATA_BYTES] ^= 16;
    for (size_t n = 0; n < BIG; n += 2003)
        sudoku_store_line(&big_store, n)[64] ^= 6;
}

static size_t big_file_checked(void)
{
    static const uint64_t hurt[8] = {SIDE, SIDE, BIG - 2701 - 131, 2701, 0, 131, 0, 1};
    size_t depth = 0;

    CHECK(sudoku_store_create(big_file, sizeof big_file, SIDE, SIDE, &big_store) == SUDOKU_DONE);
    CHECK(sudoku_store_create(big_repaired, sizeof big_repaired, SIDE, SIDE, &big_out) == SUDOKU_DONE);
    hurt_big();
    CHECK(make_stack());
    if (stack_made != NULL && stack_seen != NULL) {
        depth = depth_of(check_big);
        CHECK(0 < depth && depth < REPAIR_STACK && runs_within(check_big, REPAIR_STACK) && big_answer == SUDOKU_DONE);
        CHECK(takes_less(open_big, 2 * 1024) && big_answer == SUDOKU_DONE && takes_less(ask_big, 2 * 1024) && big_answer == SUDOKU_DONE);
        CHECK(takes_less(head_big, 2 * 1024) && big_answer == SUDOKU_DONE);
    }
    check_big();
    CHECK(big_answer == SUDOKU_DONE && memcmp(&big_check, hurt, sizeof hurt) == 0);
    CHECK(big_marks[97] == SUDOKU_MARK_REWRITTEN && big_marks[2003] == SUDOKU_MARK_REBUILT);
    CHECK(big_marks[194291] == SUDOKU_MARK_REBUILT && big_marks[BIG - 1] == SUDOKU_MARK_CLEAN);
    /* What was written is the store file as it was made: its header, and zeros. */
    CHECK(memcmp(big_repaired, header_512_by_512, SUDOKU_HEADER_BYTES) == 0);
    CHECK(all_equal(big_repaired + SUDOKU_HEADER_BYTES, sizeof big_repaired - SUDOKU_HEADER_BYTES, 0));
    return depth;
}

int main(void)
{
    size_t depth;

    headers();
    opening();
    bytes_needed();
    check_refusals();
    check_lengths();
    checking();
    depth = big_file_checked();
    printf("C store files: %d checks, %d failed; a check took %lu bytes of stack\n", checks, failures, (unsigned long)depth);
    return failures == 0 ? 0 : 1;
}
