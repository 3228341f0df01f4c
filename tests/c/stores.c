/*
 * The header's functions on stores, from C: each beside what it should give on document 01's samples, sides that no store has, the
 * sizes and the words. Prints what failed; the exit status is 1 if anything did.
 */
#include <stdio.h>
#include <stdlib.h>
#include <string.h>

#include "sudoku.h"
#include "checks.h"
#include "samples.h"

static void sizes(void)
{
    static const uint8_t one_file[SUDOKU_FILE_BYTES(2, 2)] = {0};

    CHECK(sizeof one_file == FILE_2_BY_2 && SUDOKU_FILE_BYTES(16, 16) == 20188 && SUDOKU_FILE_BYTES(512, 512) == 18421788);
    CHECK(SUDOKU_LINES_BYTES(2, 3) == 420 && SUDOKU_TABLE_BYTES(3) == 210 && SUDOKU_MARKS_BYTES(2, 3) == 6);
    CHECK(SUDOKU_LINES_BYTES(1 + 1, 2 + 1) == 420 && SUDOKU_TABLE_BYTES(1 + 2) == 210 && SUDOKU_MARKS_BYTES(1 + 1, 1 + 2) == 6);
    CHECK(SUDOKU_FILE_BYTES(1 + 1, 1 + 1) == FILE_2_BY_2 && SUDOKU_HEADER_BYTES == 28);
    CHECK(sizeof SUDOKU_LINES_BYTES(2, 2) == sizeof(size_t) && sizeof SUDOKU_FILE_BYTES(2, 2) == sizeof(size_t));
}

static void version(void)
{
    char numbers[32];

    snprintf(numbers, sizeof numbers, "%d.%d.%d", SUDOKU_VERSION_MAJOR, SUDOKU_VERSION_MINOR, SUDOKU_VERSION_PATCH);
    CHECK(strcmp(numbers, SUDOKU_VERSION) == 0);
}

static void texts(void)
{
    static const uint32_t unknown[] = {3, 9, 16, 17, 255, 256, UINT32_MAX}, known[] = {0, 1, 2, 4, 5, 6, 7, 8, 10, 11, 12, 13, 14, 15};
    static const char *const words[] = {"clean", "alone", "trial", "rebuilt", "faulty", "unknown mark"};

    for (size_t i = 0; i < sizeof unknown / sizeof unknown[0]; i++)
        CHECK(strcmp(sudoku_answer_text(unknown[i]), "unknown answer") == 0);
    for (size_t i = 0; i < sizeof known / sizeof known[0]; i++) {
        CHECK(strcmp(sudoku_answer_text(known[i]), "unknown answer") != 0);
        for (size_t j = 0; j < i; j++)
            CHECK(strcmp(sudoku_answer_text(known[i]), sudoku_answer_text(known[j])) != 0);
    }
    CHECK(strcmp(sudoku_answer_text(SUDOKU_DONE), "done") == 0);
    CHECK(strcmp(sudoku_answer_text(SUDOKU_SHORT_FILE), "the file has fewer than 28 bytes") == 0);
    CHECK(strcmp(sudoku_answer_text(SUDOKU_SIDES), "rows or columns lie outside 2 to 512") == 0);
    for (unsigned mark = 0; mark < 256; mark++)
        CHECK(strcmp(sudoku_mark_text((uint8_t)mark), words[mark < 5 ? mark : 5]) == 0);
}

/* The store in `file`, and one of three buffers of its own. */
static struct sudoku_store store, apart;

static void make_stores(void)
{
    make_file();
    FILL(out);
    FILL(marks);
    FILL(row_out);
    FILL(column_out);
    CHECK(sudoku_store_open(file, FILE_2_BY_2, &store) == SUDOKU_DONE);
    apart.rows = apart.columns = 2;
    apart.lines = out;
    apart.row_table = row_out;
    apart.column_table = column_out;
}

static int is_none(const struct sudoku_store *found)
{
    return found->rows == 0 && found->columns == 0 && found->lines == NULL && found->row_table == NULL && found->column_table == NULL;
}

static int is_file(const struct sudoku_store *found)
{
    return found->rows == 2 && found->columns == 2 && found->lines == file + LINES_AT && found->row_table == file + ROWS_AT
        && found->column_table == file + COLUMNS_AT;
}

static void creating(void)
{
    struct sudoku_store made;

    FILL(file);
    CHECK(sudoku_store_create(file, FILE_2_BY_2, 2, 2, &made) == SUDOKU_DONE && is_file(&made) && wrote(header_2_by_2));
    for (size_t length = 0; length <= FILE_2_BY_2 + GUARD; length++) {
        FILL(file);
        if (length != FILE_2_BY_2)
            CHECK(sudoku_store_create(file, length, 2, 2, &made) == SUDOKU_BUFFER && is_none(&made) && UNTOUCHED(file));
    }
    CHECK(sudoku_store_create(NULL, 0, 2, 2, &made) == SUDOKU_BUFFER && is_none(&made));
    for (size_t i = 0; i < BAD_SIDES; i++) {
        made = store;
        CHECK(sudoku_store_create(file, FILE_2_BY_2, bad_sides[i][0], bad_sides[i][1], &made) == SUDOKU_SIDES && is_none(&made));
        CHECK(UNTOUCHED(file));
    }
    make_file();
    CHECK(sudoku_store_open(file, FILE_2_BY_2, &made) == SUDOKU_DONE && is_file(&made));
    CHECK(sudoku_store_open(file, 27, &made) == SUDOKU_SHORT_FILE && is_none(&made));
    made = store;
    CHECK(sudoku_store_open(file, FILE_2_BY_2 - 1, &made) == SUDOKU_CONTENTS && is_none(&made));
    file[0] = 1;
    CHECK(sudoku_store_open(file, FILE_2_BY_2, &made) == SUDOKU_SIDES && is_none(&made));
    CHECK(sudoku_store_open(NULL, 0, &made) == SUDOKU_SHORT_FILE && is_none(&made));
}

/* The line of docs/FORMAT.md: its caption is filled up with spaces. */
static void caption(uint8_t *data)
{
    memset(data, ' ', SUDOKU_DATA_BYTES);
    memcpy(data, "To be, or not to be", 19);
}

static const uint8_t end_of_caption[6] = {0xEF, 0x3E, 0x23, 0x18, 0x27, 0x00};

static int is_caption(const uint8_t *line)
{
    uint8_t data[SUDOKU_DATA_BYTES];

    caption(data);
    return memcmp(line, data, sizeof data) == 0 && memcmp(line + 64, end_of_caption, sizeof end_of_caption) == 0;
}

/* Line 3 is written and changed back and forth: it has row 1 and column 1, whose parity lines are equal to it, since the rest is 0. */
static void writing(void)
{
    uint8_t data[SUDOKU_DATA_BYTES];
    const uint8_t empty[SUDOKU_DATA_BYTES] = {0};
    uint64_t number = UNSET;

    make_stores();
    caption(data);
    CHECK(sudoku_store_count(&store) == FOUR && sudoku_store_lines_bytes(&store) == 280);
    CHECK(sudoku_store_row_bytes(&store) == 140 && sudoku_store_column_bytes(&store) == 140);
    CHECK(sudoku_store_line(&store, 3) == file + LINES_AT + 210 && sudoku_store_line(&store, 4) == NULL);
    CHECK(sudoku_store_write(&store, 4, data) == SUDOKU_NUMBER && sudoku_store_write(&store, SIZE_MAX, data) == SUDOKU_NUMBER);
    CHECK(all_equal(file + LINES_AT, FILE_2_BY_2 - LINES_AT, 0));
    CHECK(sudoku_store_write(&store, 3, data) == SUDOKU_DONE && is_caption(file + LINES_AT + 210));
    CHECK(all_equal(file + ROWS_AT, FILE_2_BY_2 - ROWS_AT, 0));
    CHECK(sudoku_store_make_tables(&store) == SUDOKU_DONE);
    CHECK(is_caption(file + ROWS_AT + LINE) && is_caption(file + COLUMNS_AT + LINE));
    CHECK(all_equal(file + ROWS_AT, LINE, 0) && all_equal(file + COLUMNS_AT, LINE, 0));

    CHECK(sudoku_store_change(&store, 3, empty, &number) == SUDOKU_DONE && number == 0);
    CHECK(all_equal(file + LINES_AT, FILE_2_BY_2 - LINES_AT, 0));
    CHECK(sudoku_store_change(&store, 4, data, &number) == SUDOKU_NUMBER && number == 0);
    file[COLUMNS_AT + LINE] ^= 1;
    CHECK(sudoku_store_change(&store, 3, data, &number) == SUDOKU_COLUMN_PARITY && number == 1);
    file[ROWS_AT + LINE] ^= 1;
    CHECK(sudoku_store_change(&store, 3, data, &number) == SUDOKU_ROW_PARITY && number == 1);
    file[LINES_AT] = 3;
    CHECK(sudoku_store_make_tables(&store) == SUDOKU_FAULTY);
    CHECK(memcmp(file, header_2_by_2, sizeof header_2_by_2) == 0 && INTACT(file));
}

/* Store files of six lines, and their marks. */
enum { SIX = 6, FILE_OF_SIX = 798 };

GUARDED(long_file, FILE_OF_SIX);
GUARDED(long_out, FILE_OF_SIX);
GUARDED(long_marks, SIX);

/* Whether these are `count` parity lines of that many equal captions each: zeros if it is even, otherwise the caption. */
static int parity_of_captions(const uint8_t *table, size_t count, size_t captions)
{
    for (size_t i = 0; i < count; i++)
        if (captions % 2 == 0 ? !all_equal(table + i * LINE, LINE, 0) : !is_caption(table + i * LINE))
            return 0;
    return 1;
}

/* The same caption six times, in a store whose rows and columns differ, and its parity lines. */
static void make_oblong(struct sudoku_store *six, struct sudoku_store *repaired, size_t rows, size_t columns)
{
    uint8_t data[SUDOKU_DATA_BYTES];

    caption(data);
    FILL(long_file);
    FILL(long_out);
    FILL(long_marks);
    CHECK(sudoku_store_create(long_file, FILE_OF_SIX, rows, columns, six) == SUDOKU_DONE && six->lines == long_file + 28);
    CHECK(sudoku_store_create(long_out, FILE_OF_SIX, rows, columns, repaired) == SUDOKU_DONE);
    CHECK(six->row_table == long_file + 448 && six->column_table == long_file + 448 + rows * LINE);
    for (size_t n = 0; n < SIX; n++)
        CHECK(sudoku_store_write(six, n, data) == SUDOKU_DONE);
    CHECK(sudoku_store_make_tables(six) == SUDOKU_DONE && parity_of_captions(six->row_table, rows, columns));
    CHECK(parity_of_captions(six->column_table, columns, rows));
}

/* Every function that takes lines, row table and column table, on such a store. */
static void oblong(size_t rows, size_t columns)
{
    const uint8_t empty[SUDOKU_DATA_BYTES] = {0};
    const uint64_t found[8] = {rows, columns, 5, 0, 0, 1, 0, 1};
    struct sudoku_store six, repaired;
    struct sudoku_check check;
    struct sudoku_one one;
    uint64_t number;

    make_oblong(&six, &repaired, rows, columns);
    /* Line 5, the last of its row and its column: two bits of it are hurt. */
    six.lines[5 * LINE] ^= 3;
    CHECK(sudoku_store_check(long_file, FILE_OF_SIX, &repaired, long_marks, &check) == SUDOKU_DONE && long_marks[5] == 3);
    CHECK(memcmp(&check, found, sizeof found) == 0 && is_caption(repaired.lines + 5 * LINE));
    CHECK(sudoku_store_read_one(&six, 5, &repaired, long_marks, &one) == SUDOKU_DONE && is_caption(one.line) && one.step == 2);
    CHECK(all_equal(long_out + 28, FILE_OF_SIX - 28, 0) && memcmp(long_out, long_file, 28) == 0);
    CHECK(sudoku_store_repair(&six, &repaired, long_marks, &number) == SUDOKU_DONE && number == 1 && long_marks[5] == 3);
    /* Line 4 of the same row, hurt alike: only its column rebuilds line 5. */
    six.lines[4 * LINE] ^= 3;
    CHECK(sudoku_store_read_one(&six, 5, &repaired, long_marks, &one) == SUDOKU_DONE && is_caption(one.line) && one.step == 3);
    CHECK(sudoku_store_repair(&six, &repaired, long_marks, &number) == SUDOKU_DONE && number == 1 && long_marks[4] == 3);
    six.lines[4 * LINE] ^= 3;
    six.lines[5 * LINE] ^= 3;
    CHECK(memcmp(long_out, long_file, FILE_OF_SIX) == 0);
    CHECK(sudoku_store_change(&six, 5, empty, &number) == SUDOKU_DONE && all_equal(six.lines + 5 * LINE, LINE, 0));
    CHECK(parity_of_captions(six.row_table + (rows - 1) * LINE, 1, columns - 1));
    CHECK(parity_of_captions(six.column_table + (columns - 1) * LINE, 1, rows - 1));
    CHECK(INTACT(long_file) && INTACT(long_out) && INTACT(long_marks));
}

/* Whether reading line n of a sample alone gives its first byte as found where it is faulty alone, and else a line of zeros. */
static int reads_alone(const struct sample *sample, size_t n)
{
    const int faulty = sample->marks[n] > SUDOKU_MARK_REWRITTEN;
    struct sudoku_one one;

    return sudoku_store_read(&store, n, &one) == (faulty ? SUDOKU_FAULTY : SUDOKU_DONE) && one.step == SUDOKU_STEP_ALONE
        && one.mark == (faulty ? SUDOKU_MARK_FAULTY : sample->marks[n]) && one.line[0] == (faulty ? sample->hurt[n] : 0)
        && all_equal(one.line + 1, LINE - 1, 0);
}

/* Whether line n is given as whole repair gives it, by this step, and the room that is worked in is cleared. */
static int reads_one(const struct sample *sample, size_t n, uint32_t step)
{
    const int faulty = sample->marks[n] == SUDOKU_MARK_FAULTY;
    struct sudoku_one one;

    return sudoku_store_read_one(&store, n, &apart, marks, &one) == (faulty ? SUDOKU_LEFT : SUDOKU_DONE) && one.step == step
        && one.mark == sample->marks[n] && one.line[0] == (faulty ? sample->hurt[n] : 0) && all_equal(one.line + 1, LINE - 1, 0)
        && all_equal(out, FOUR * LINE, 0) && all_equal(marks, FOUR, 0) && all_equal(row_out, 2 * LINE, 0)
        && all_equal(column_out, 2 * LINE, 0);
}

/* Every sample through each function on stores that reads it; beside them what a forecast and a wear report make of it. */
static void reading(void)
{
    /* The steps that document 01's rules and request Q-4 give; the forecast rebuilds what is faulty alone but for the ring of four. */
    static const uint8_t steps[SAMPLES][FOUR] = {{1, 1, 1, 1}, {1, 1, 1, 1}, {2, 1, 1, 1}, {2, 2, 1, 1}, {3, 3, 1, 1}, {3, 3, 2, 1},
                                                 {3, 3, 3, 3}};
    struct sudoku_check check;
    uint8_t faulty[FOUR], foretold[FOUR];
    uint64_t passes;

    for (size_t i = 0; i < SAMPLES; i++) {
        const struct sample *const sample = &samples[i];
        uint64_t wear[SUDOKU_WEAR_NUMBERS] = {0};

        make_stores();
        hurt_file(sample);
        CHECK(sudoku_store_repair(&store, &apart, marks, &passes) == sample->answer && passes == sample->check[7]);
        CHECK(sample_lines(sample, out) && memcmp(marks, sample->marks, FOUR) == 0 && all_equal(row_out, 2 * LINE, 0));
        CHECK(sudoku_store_wear(&store, marks, sample->answer, wear) == SUDOKU_DONE && wear[SUDOKU_WEAR_STORES] == 1);
        CHECK(wear[SUDOKU_WEAR_LINES] == FOUR && memcmp(wear + SUDOKU_WEAR_CLEAN, sample->check + 2, 5 * sizeof *wear) == 0);
        CHECK(sudoku_store_check(file, FILE_2_BY_2, &apart, marks, &check) == sample->answer);
        CHECK(memcmp(&check, sample->check, sizeof check) == 0 && sample_lines(sample, out));
        for (size_t n = 0; n < FOUR; n++)
            CHECK(reads_alone(sample, n) && reads_one(sample, n, steps[i][n]));
        CHECK(sudoku_store_list_faulty(&store, faulty) == SUDOKU_DONE);
        CHECK(sudoku_store_forecast(&store, faulty, foretold, &passes) == SUDOKU_DONE && passes == sample->check[7]);
        for (size_t n = 0; n < FOUR; n++) {
            const uint8_t rebuilt = sample->answer == SUDOKU_LEFT ? SUDOKU_MARK_FAULTY : SUDOKU_MARK_REBUILT;

            CHECK(faulty[n] == (sample->marks[n] > SUDOKU_MARK_REWRITTEN) && foretold[n] == (faulty[n] == 1 ? rebuilt : 0));
        }
        CHECK(INTACT(file) && INTACT(out) && INTACT(marks) && INTACT(row_out) && INTACT(column_out));
    }
}

/* No line of this number; and a second store of other sides: 3 by 2 has as many lines, 2 by 3 as many rows. Nothing is written. */
static void reading_refusals(void)
{
    static const size_t others[][2] = {{3, 2}, {2, 3}, {4, 1}, {1, 4}, {0, 0}, {513, 2}, {SIZE_MAX, SIZE_MAX}};
    struct sudoku_one one = {{0}, 77, 77};
    struct sudoku_check check;
    uint64_t passes = UNSET;

    make_stores();
    CHECK(sudoku_store_read(&store, FOUR, &one) == SUDOKU_NUMBER && one.mark == 0 && one.step == 0);
    one.mark = 77;
    CHECK(sudoku_store_read_one(&store, FOUR, &apart, marks, &one) == SUDOKU_NUMBER && one.mark == 0 && one.step == 0);
    for (size_t i = 0; i < sizeof others / sizeof others[0]; i++) {
        struct sudoku_store other = apart;

        other.rows = others[i][0];
        other.columns = others[i][1];
        one.mark = 77;
        one.step = 77;
        CHECK(sudoku_store_repair(&store, &other, marks, &passes) == SUDOKU_TABLE && passes == 0);
        CHECK(sudoku_store_read_one(&store, 0, &other, marks, &one) == SUDOKU_TABLE && one.mark == 0 && one.step == 0);
        CHECK(sudoku_store_check(file, FILE_2_BY_2, &other, marks, &check) == SUDOKU_TABLE && memcmp(&check, nothing, sizeof check) == 0);
        CHECK(sudoku_store_check(file, 27, &other, marks, &check) == SUDOKU_SHORT_FILE && check.rows == 0);
    }
    CHECK(UNTOUCHED(out) && UNTOUCHED(marks) && UNTOUCHED(row_out) && UNTOUCHED(column_out));
}

/* Sides that no store has: 2 from each function, with nothing to point to, and nothing that is returned. */
static void bad_stores(void)
{
    const uint8_t data[SUDOKU_DATA_BYTES] = {0}, list[FOUR] = {0};
    uint64_t wear[SUDOKU_WEAR_NUMBERS] = {0};

    make_stores();
    for (size_t i = 0; i < BAD_SIDES; i++) {
        struct sudoku_store bad = {bad_sides[i][0], bad_sides[i][1], NULL, NULL, NULL};
        struct sudoku_one one = {{0}, 77, 77};
        uint64_t number = UNSET, passes = UNSET;

        CHECK(sudoku_store_count(&bad) == 0 && sudoku_store_lines_bytes(&bad) == 0);
        CHECK(sudoku_store_row_bytes(&bad) == 0 && sudoku_store_column_bytes(&bad) == 0 && sudoku_store_line(&bad, 0) == NULL);
        CHECK(sudoku_store_write(&bad, 0, data) == SUDOKU_SIDES && sudoku_store_make_tables(&bad) == SUDOKU_SIDES);
        CHECK(sudoku_store_read(&bad, 0, &one) == SUDOKU_SIDES && one.mark == 0 && one.step == 0);
        CHECK(sudoku_store_change(&bad, 0, data, &number) == SUDOKU_SIDES && number == 0);
        CHECK(sudoku_store_repair(&bad, &apart, marks, &passes) == SUDOKU_SIDES && passes == 0);
        CHECK(sudoku_store_repair(&bad, &bad, marks, &passes) == SUDOKU_SIDES && passes == 0);
        one.mark = 77;
        CHECK(sudoku_store_read_one(&bad, 0, &apart, marks, &one) == SUDOKU_SIDES && one.mark == 0 && one.step == 0);
        CHECK(sudoku_store_list_faulty(&bad, marks) == SUDOKU_SIDES);
        passes = UNSET;
        CHECK(sudoku_store_forecast(&bad, list, marks, &passes) == SUDOKU_SIDES && passes == 0);
        CHECK(sudoku_store_wear(&bad, list, SUDOKU_DONE, wear) == SUDOKU_SIDES && all_equal((const uint8_t *)wear, sizeof wear, 0));
    }
    CHECK(UNTOUCHED(out) && UNTOUCHED(marks) && UNTOUCHED(row_out) && UNTOUCHED(column_out) && INTACT(file));
}

/* One of four lines rebuilt, one of five, and none at all; five lines of which the marks add up to four are no report. */
static void wear_order(void)
{
    static const uint64_t quarter[SUDOKU_WEAR_NUMBERS] = {1, 4, 3, 0, 0, 1, 0, 1, 0, 0};
    static const uint64_t fifth[SUDOKU_WEAR_NUMBERS] = {1, 5, 4, 0, 0, 1, 0, 1, 0, 0};
    static const uint64_t nothing[SUDOKU_WEAR_NUMBERS] = {0}, wrong[SUDOKU_WEAR_NUMBERS] = {1, 5, 3, 0, 0, 1, 0, 1, 0, 0};
    uint32_t order = 77;

    CHECK(sudoku_wear_order(quarter, fifth, &order) == SUDOKU_DONE && order == SUDOKU_ORDER_GREATER);
    CHECK(sudoku_wear_order(fifth, quarter, &order) == SUDOKU_DONE && order == SUDOKU_ORDER_LESS);
    CHECK(sudoku_wear_order(fifth, fifth, &order) == SUDOKU_DONE && order == SUDOKU_ORDER_EQUAL);
    CHECK(sudoku_wear_order(nothing, fifth, &order) == SUDOKU_DONE && order == SUDOKU_ORDER_LESS);
    order = 77;
    CHECK(sudoku_wear_order(fifth, wrong, &order) == SUDOKU_WEAR && order == 0);
}

int main(void)
{
    sizes();
    version();
    texts();
    creating();
    writing();
    oblong(2, 3);
    oblong(3, 2);
    reading();
    reading_refusals();
    bad_stores();
    wear_order();
    printf("C stores: %d checks, %d failed\n", checks, failures);
    return failures == 0 ? 0 : 1;
}
