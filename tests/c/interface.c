/*
 * The C interface from C: samples, refusals, guard bytes, what a read of one line looks at, forecasts, wear reports, and how much stack
 * each call takes. Prints what failed; the exit status is 1 if anything did.
 */
#define _POSIX_C_SOURCE 200809L
#include <signal.h>
#include <stdio.h>
#include <stdlib.h>
#include <string.h>
#include <sys/mman.h>
#include <sys/wait.h>
#include <unistd.h>

#include "sudoku.h"
#include "checks.h"
#include "stack.h"

#define ROWS 2
#define COLUMNS 3
#define COUNT (ROWS * COLUMNS)
#define ALL (COUNT * LINE)

GUARDED(line, LINE);
GUARDED(lines, ALL);
GUARDED(rows, ROWS *LINE);
GUARDED(columns, COLUMNS *LINE);
GUARDED(out, ALL);
GUARDED(marks, COUNT);
GUARDED(row_out, ROWS *LINE);
GUARDED(column_out, COLUMNS *LINE);
GUARDED(faulty, COUNT);

/* A number that is returned, between guard words: not 0 before the call, so that one which does not set it is seen. */
static uint64_t number_all[3];
static uint64_t *const number = number_all + 1;

static void unset_number(void)
{
    number_all[0] = number_all[1] = number_all[2] = UNSET;
}

/* Whether the last call set the number to this, and nothing beside it. */
static int numbered(uint64_t expected)
{
    return number_all[0] == UNSET && *number == expected && number_all[2] == UNSET;
}

static void writing(void)
{
    static const uint8_t end[7] = {0x80, 0xC7, 0x6F, 0x66, 0x56, 0x09, 0x00};
    uint8_t data[SUDOKU_DATA_BYTES + 1] = {0};

    FILL(line);
    CHECK(sudoku_write_line(data, 63, line, LINE) == SUDOKU_BUFFER);
    CHECK(sudoku_write_line(data, 65, line, LINE) == SUDOKU_BUFFER);
    CHECK(sudoku_write_line(data, 64, line, LINE - 1) == SUDOKU_BUFFER);
    CHECK(sudoku_write_line(data, 64, line, LINE + 1) == SUDOKU_BUFFER);
    CHECK(sudoku_write_line(NULL, 0, line, LINE) == SUDOKU_BUFFER);
    CHECK(sudoku_write_line(data, 64, NULL, 0) == SUDOKU_BUFFER);
    CHECK(UNTOUCHED(line));

    data[63] = 0x80;
    CHECK(sudoku_write_line(data, 64, line, LINE) == SUDOKU_DONE);
    CHECK(memcmp(line, data, 64) == 0);
    CHECK(memcmp(line + 63, end, sizeof end) == 0);
    CHECK(INTACT(line));
}

static void reading(void)
{
    uint8_t found[LINE] = {0};
    static const uint8_t zero[LINE] = {0};
    uint8_t mark = 77;

    FILL(line);
    CHECK(sudoku_read_line(found, LINE - 1, line, LINE, &mark) == SUDOKU_LINES && mark == 0);
    mark = 77;
    CHECK(sudoku_read_line(NULL, 0, NULL, 0, &mark) == SUDOKU_LINES && mark == 0);
    mark = 77;
    CHECK(sudoku_read_line(found, LINE, line, LINE + 1, &mark) == SUDOKU_BUFFER && mark == 0);
    CHECK(UNTOUCHED(line));

    CHECK(sudoku_read_line(found, LINE, line, LINE, &mark) == SUDOKU_DONE && mark == SUDOKU_MARK_CLEAN);
    found[69] = 0xFC;
    CHECK(sudoku_read_line(found, LINE, line, LINE, &mark) == SUDOKU_DONE && mark == SUDOKU_MARK_CLEAN);
    CHECK(memcmp(line, zero, LINE) == 0);
    found[0] = 1;
    CHECK(sudoku_read_line(found, LINE, line, LINE, &mark) == SUDOKU_DONE && mark == SUDOKU_MARK_REWRITTEN);
    CHECK(memcmp(line, zero, LINE) == 0);
    found[0] = 3;
    CHECK(sudoku_read_line(found, LINE, line, LINE, &mark) == SUDOKU_FAULTY && mark == SUDOKU_MARK_FAULTY);
    found[69] = 0;
    CHECK(memcmp(line, found, LINE) == 0);
    CHECK(INTACT(line));
}

/* Any of the ten Hamming bits hurt, and nothing else: the line is mended, and its mark tells. */
static void reading_hamming_bits(void)
{
    uint8_t found[LINE] = {0};
    static const uint8_t zero[LINE] = {0};
    unsigned mended = 0;

    for (unsigned bits = 1; bits < 1024; bits++) {
        uint8_t mark = 77;

        FILL(line);
        found[68] = (uint8_t)(bits & 0xFF);
        found[69] = (uint8_t)(bits >> 8);
        if (sudoku_read_line(found, LINE, line, LINE, &mark) == SUDOKU_DONE && mark == SUDOKU_MARK_REWRITTEN
            && memcmp(line, zero, LINE) == 0 && INTACT(line))
            mended++;
    }
    CHECK(mended == 1023);
}

static void tables(void)
{
    memset(lines, 0, ALL);
    CHECK(sudoku_make_tables(1, COLUMNS, lines, ALL, rows, ROWS * LINE, columns, COLUMNS * LINE) == SUDOKU_SIDES);
    CHECK(sudoku_make_tables(ROWS, 513, lines, ALL, rows, ROWS * LINE, columns, COLUMNS * LINE) == SUDOKU_SIDES);
    CHECK(sudoku_make_tables(ROWS, COLUMNS, lines, ALL - 1, rows, ROWS * LINE, columns, COLUMNS * LINE) == SUDOKU_LINES);
    CHECK(sudoku_make_tables(ROWS, COLUMNS, lines, ALL, rows, LINE, columns, COLUMNS * LINE) == SUDOKU_TABLE);
    CHECK(sudoku_make_tables(ROWS, COLUMNS, lines, ALL, rows, ROWS * LINE, NULL, 0) == SUDOKU_TABLE);
    lines[LINE] = 3;
    CHECK(sudoku_make_tables(ROWS, COLUMNS, lines, ALL, rows, ROWS * LINE, columns, COLUMNS * LINE) == SUDOKU_FAULTY);
    lines[LINE] = 0;
    CHECK(UNTOUCHED(rows) && UNTOUCHED(columns));
    CHECK(sudoku_make_tables(ROWS, COLUMNS, lines, ALL, rows, ROWS * LINE, columns, COLUMNS * LINE) == SUDOKU_DONE);
    CHECK(INTACT(rows) && INTACT(columns) && INTACT(lines));
}

static uint32_t change(size_t n, const uint8_t *data, size_t data_len)
{
    unset_number();
    return sudoku_change_line(ROWS, COLUMNS, lines, ALL, rows, ROWS * LINE, columns, COLUMNS * LINE, n, data, data_len, number);
}

/* The answer of changing line 1 where sides, lines or tables have these sizes. */
static uint32_t change_sized(size_t r, size_t c, size_t lines_len, size_t rows_len, size_t columns_len, const uint8_t *data)
{
    unset_number();
    return sudoku_change_line(r, c, lines, lines_len, rows, rows_len, columns, columns_len, 1, data, SUDOKU_DATA_BYTES, number);
}

static void changing(void)
{
    static uint8_t before[ALL], rows_anew[ROWS * LINE], columns_anew[COLUMNS * LINE];
    uint8_t data[SUDOKU_DATA_BYTES];

    memset(data, 'x', sizeof data);
    memcpy(before, lines, sizeof before);
    /* From the last refusal of the list up: each is given though those after it fit too. Line 1 has row 0 and column 1. */
    lines[LINE] ^= 3;
    CHECK(change(1, data, sizeof data) == SUDOKU_FAULTY && numbered(0));
    columns[LINE] ^= 1;
    CHECK(change(1, data, sizeof data) == SUDOKU_COLUMN_PARITY && numbered(1));
    rows[0] ^= 1;
    CHECK(change(1, data, sizeof data) == SUDOKU_ROW_PARITY && numbered(0));
    CHECK(change(COUNT, data, sizeof data) == SUDOKU_NUMBER && numbered(0));
    CHECK(change(COUNT, data, 63) == SUDOKU_BUFFER && numbered(0));
    CHECK(change_sized(ROWS, COLUMNS, ALL, LINE, COLUMNS * LINE, data) == SUDOKU_TABLE && numbered(0));
    CHECK(change_sized(ROWS, COLUMNS, ALL - 1, LINE, COLUMNS * LINE, data) == SUDOKU_LINES && numbered(0));
    CHECK(change_sized(ROWS, 1, ALL - 1, LINE, COLUMNS * LINE, data) == SUDOKU_SIDES && numbered(0));
    rows[0] ^= 1;
    columns[LINE] ^= 1;
    lines[LINE] ^= 3;
    CHECK(memcmp(lines, before, sizeof before) == 0);

    CHECK(change(1, data, sizeof data) == SUDOKU_DONE && numbered(0));
    CHECK(change(5, data, sizeof data) == SUDOKU_DONE && numbered(0));
    CHECK(memcmp(lines + LINE, data, sizeof data) == 0);
    CHECK(sudoku_make_tables(ROWS, COLUMNS, lines, ALL, rows_anew, sizeof rows_anew, columns_anew,
                             sizeof columns_anew) == SUDOKU_DONE);
    CHECK(memcmp(rows, rows_anew, sizeof rows_anew) == 0);
    CHECK(memcmp(columns, columns_anew, sizeof columns_anew) == 0);
    CHECK(INTACT(lines) && INTACT(rows) && INTACT(columns));
}

/* Sides, and the lengths of all that repair takes. */
struct sizes {
    size_t rows, columns, lines, row_table, column_table, out, marks, row_out, column_out;
};

static const struct sizes right = {ROWS, COLUMNS, ALL, ROWS * LINE, COLUMNS * LINE, ALL, COUNT, ROWS * LINE, COLUMNS * LINE};

static uint32_t repair_sized(struct sizes s, uint64_t *passes)
{
    *passes = UNSET;
    return sudoku_repair(s.rows, s.columns, lines, s.lines, rows, s.row_table, columns, s.column_table, out, s.out, marks, s.marks,
                         row_out, s.row_out, column_out, s.column_out, passes);
}

static void fill_written(void)
{
    FILL(out);
    FILL(marks);
    FILL(row_out);
    FILL(column_out);
}

static int written_intact(void)
{
    return INTACT(out) && INTACT(marks) && INTACT(row_out) && INTACT(column_out);
}

/* Whether repair gives this answer and these passes, and writes nothing beside its buffers. */
static int repairs(uint32_t answer, uint64_t expected)
{
    uint64_t passes;

    fill_written();
    return repair_sized(right, &passes) == answer && passes == expected && written_intact();
}

/* Whether repair with these sizes is refused so: nothing is written, and the passes are 0. */
static int refused(struct sizes sizes, uint32_t answer)
{
    uint64_t passes;

    fill_written();
    return repair_sized(sizes, &passes) == answer && passes == 0 && UNTOUCHED(out) && UNTOUCHED(marks) && UNTOUCHED(row_out)
        && UNTOUCHED(column_out);
}

/* Lines and tables, to be compared with and to go back to. */
struct store {
    uint8_t lines[ALL], rows[ROWS * LINE], columns[COLUMNS * LINE];
};

static void keep(struct store *store)
{
    memcpy(store->lines, lines, ALL);
    memcpy(store->rows, rows, ROWS * LINE);
    memcpy(store->columns, columns, COLUMNS * LINE);
}

static void put_back(const struct store *store)
{
    memcpy(lines, store->lines, ALL);
    memcpy(rows, store->rows, ROWS * LINE);
    memcpy(columns, store->columns, COLUMNS * LINE);
}

/* Whether lines, rows and columns each are as kept, or each are not. */
static int as_kept(const struct store *store, int same)
{
    return (memcmp(lines, store->lines, ALL) == 0) == same && (memcmp(rows, store->rows, ROWS * LINE) == 0) == same
        && (memcmp(columns, store->columns, COLUMNS * LINE) == 0) == same;
}

/* Whether repair gave these lines and tables, byte for byte. */
static int gave(const struct store *store)
{
    return memcmp(out, store->lines, ALL) == 0 && memcmp(row_out, store->rows, ROWS * LINE) == 0
        && memcmp(column_out, store->columns, COLUMNS * LINE) == 0;
}

/* Changes every line: 13 with its row where that is bad, else 14 with its column where that is, and nothing is written then. */
static void change_each(unsigned bad_rows, unsigned bad_columns)
{
    static struct store before;
    uint8_t data[SUDOKU_DATA_BYTES];

    memset(data, 'y', sizeof data);
    keep(&before);
    for (size_t n = 0; n < COUNT; n++) {
        const int bad_row = bad_rows >> n / COLUMNS & 1, bad_column = bad_columns >> n % COLUMNS & 1;
        const uint32_t answer = bad_row ? SUDOKU_ROW_PARITY : bad_column ? SUDOKU_COLUMN_PARITY : SUDOKU_DONE;

        CHECK(change(n, data, sizeof data) == answer && numbered(bad_row ? n / COLUMNS : bad_column ? n % COLUMNS : 0));
        CHECK(as_kept(&before, answer != SUDOKU_DONE));
        put_back(&before);
    }
}

/*
 * Every set of bad rows with every set of bad columns: rows hurt past reading, columns in a Hamming bit. A change looks at its own
 * row and column alone. Repair refuses none of them, and gives both tables as they were written.
 */
static void bad_parity(void)
{
    static struct store written;

    CHECK(SUDOKU_ROW_PARITY == 13 && SUDOKU_COLUMN_PARITY == 14);
    keep(&written);
    for (unsigned set = 0; set < 1u << (ROWS + COLUMNS); set++) {
        const unsigned bad_rows = set % (1u << ROWS), bad_columns = set >> ROWS;

        /* Data bits of a row, a Hamming bit of a column; the spare bits do not count. */
        for (size_t c = 0; c < COLUMNS; c++) {
            columns[c * LINE + 69] |= 0xFC;
            columns[c * LINE + 68] ^= bad_columns >> c & 1;
        }
        for (size_t r = 0; r < ROWS; r++) {
            rows[r * LINE + 67] |= 0x80;
            rows[r * LINE + 63] ^= bad_rows >> r & 1 ? 0xC0 : 0;
        }
        CHECK(repairs(SUDOKU_DONE, 0) && gave(&written));
        change_each(bad_rows, bad_columns);
        put_back(&written);
    }
    CHECK(INTACT(lines) && INTACT(rows) && INTACT(columns));
}

/* From the last refusal of the list up: each is given though those after it fit too. */
static void repair_refusals(void)
{
    struct sizes sizes = right;

    sizes.marks++;
    CHECK(refused(sizes, SUDOKU_BUFFER));
    sizes.out--;
    CHECK(refused(sizes, SUDOKU_BUFFER));
    sizes.column_out--;
    CHECK(refused(sizes, SUDOKU_TABLE));
    sizes.row_out++;
    CHECK(refused(sizes, SUDOKU_TABLE));
    sizes.column_out++;
    CHECK(refused(sizes, SUDOKU_TABLE));
    sizes.column_table = LINE;
    CHECK(refused(sizes, SUDOKU_TABLE));
    sizes.row_table = 0;
    CHECK(refused(sizes, SUDOKU_TABLE));
    sizes.lines = 0;
    CHECK(refused(sizes, SUDOKU_LINES));
    sizes.rows = 513;
    CHECK(refused(sizes, SUDOKU_SIDES));
    sizes.rows = ROWS;
    sizes.columns = 1;
    CHECK(refused(sizes, SUDOKU_SIDES));
}

static void repairing(void)
{
    static struct store written, expected;

    keep(&written);
    CHECK(repairs(SUDOKU_DONE, 0) && gave(&written));
    lines[0] ^= 3;
    lines[LINE] ^= 12;
    lines[2 * LINE] ^= 1;
    lines[4 * LINE + 68] ^= 1;
    lines[5 * LINE + 69] ^= 2;
    CHECK(repairs(SUDOKU_DONE, 1) && gave(&written));
    CHECK(marks[0] == SUDOKU_MARK_TRIAL && marks[1] == SUDOKU_MARK_TRIAL);
    CHECK(marks[2] == SUDOKU_MARK_REWRITTEN && marks[3] == SUDOKU_MARK_CLEAN);
    CHECK(marks[4] == SUDOKU_MARK_REWRITTEN && marks[5] == SUDOKU_MARK_REWRITTEN);

    put_back(&written);
    for (size_t n = 0; n < COUNT; n++)
        if (n % COLUMNS < 2)
            lines[n * LINE] ^= 3;
    keep(&expected);
    CHECK(repairs(SUDOKU_LEFT, 1) && gave(&expected) && marks[4] == SUDOKU_MARK_FAULTY);

    /* Lines 0 and 1 are correct, but not those written: every parity line of theirs tells. */
    put_back(&written);
    memset(lines, 0, 2 * LINE);
    keep(&expected);
    CHECK(repairs(SUDOKU_DIFFERS, 0) && gave(&expected));
    put_back(&written);
}

/* Line 1 is hurt past reading, and so are parity lines; it has row 0 and column 1. */
static void repairing_tables(void)
{
    static struct store written, expected;

    keep(&written);
    /* The row is unusable: its column rebuilds the line, and the row's parity line is made afresh. */
    lines[LINE] ^= 3;
    rows[0] ^= 3;
    rows[69] |= 0xFC;
    CHECK(repairs(SUDOKU_DONE, 1) && gave(&written) && marks[1] == SUDOKU_MARK_REBUILT);
    /* One bit of the column's parity line is hurt: it is used as read. */
    columns[LINE + 5] ^= 1;
    CHECK(repairs(SUDOKU_DONE, 1) && gave(&written) && marks[1] == SUDOKU_MARK_REBUILT);
    /* A second bit: nothing can rebuild the line, and both parity lines are as found, spare bits 0. */
    columns[LINE + 6] ^= 1;
    keep(&expected);
    expected.rows[69] &= 0x03;
    CHECK(repairs(SUDOKU_LEFT, 1) && gave(&expected) && marks[1] == SUDOKU_MARK_FAULTY);

    /* Another correct line in its place: both parity lines are made afresh from it, and nothing tells. */
    memset(lines + LINE, 0, LINE);
    keep(&expected);
    for (size_t i = 0; i < LINE; i++) {
        expected.rows[i] = lines[i] ^ lines[2 * LINE + i];
        expected.columns[LINE + i] = lines[4 * LINE + i];
    }
    CHECK(repairs(SUDOKU_DONE, 0) && gave(&expected));
    /* Where the column's parity line is accepted, it tells. */
    memcpy(columns, written.columns, COLUMNS * LINE);
    memcpy(expected.columns, written.columns, COLUMNS * LINE);
    CHECK(repairs(SUDOKU_DIFFERS, 0) && gave(&expected));
    put_back(&written);
}

/* Mark and step that are returned, between guards, as the number above. */
static uint8_t mark_all[3];
static uint32_t step_all[3];

/* Whether the last call set mark and step to these, and nothing beside them. */
static int marked(uint8_t mark, uint32_t step)
{
    return mark_all[0] == FILLING && mark_all[1] == mark && mark_all[2] == FILLING && step_all[0] == (uint32_t)UNSET
        && step_all[1] == step && step_all[2] == (uint32_t)UNSET;
}

/* Reads line n, its buffer of so many bytes; all that is written holds the filling before. */
static uint32_t read_sized(struct sizes s, size_t n, size_t line_len)
{
    fill_written();
    FILL(line);
    memset(mark_all, FILLING, sizeof mark_all);
    step_all[0] = step_all[1] = step_all[2] = (uint32_t)UNSET;
    return sudoku_read_one(s.rows, s.columns, lines, s.lines, rows, s.row_table, columns, s.column_table, n, out, s.out, marks,
                           s.marks, row_out, s.row_out, column_out, s.column_out, line, line_len, mark_all + 1, step_all + 1);
}

/* Whether such a read is refused so: nothing is written, and mark and step are 0. */
static int one_refused(struct sizes sizes, size_t n, size_t line_len, uint32_t answer)
{
    return read_sized(sizes, n, line_len) == answer && marked(0, 0) && UNTOUCHED(line) && UNTOUCHED(out) && UNTOUCHED(marks)
        && UNTOUCHED(row_out) && UNTOUCHED(column_out);
}

/* Whether the buffers lent to work in are zero in these sizes, and as before beyond. */
static int work_cleared(struct sizes s)
{
    return all_equal(out, s.out, 0) && all_are(out + s.out, ALL - s.out) && all_equal(marks, s.marks, 0)
        && all_are(marks + s.marks, COUNT - s.marks) && all_equal(row_out, s.row_out, 0)
        && all_are(row_out + s.row_out, ROWS * LINE - s.row_out) && all_equal(column_out, s.column_out, 0)
        && all_are(column_out + s.column_out, COLUMNS * LINE - s.column_out) && written_intact();
}

/* Whether line n is given so, with answer 11 exactly if its mark is 4, and nothing that is read was written. */
static int gives(struct sizes sizes, size_t n, uint32_t step, uint8_t mark, const uint8_t *expected)
{
    static struct store before;

    keep(&before);
    return read_sized(sizes, n, LINE) == (mark == SUDOKU_MARK_FAULTY ? SUDOKU_LEFT : SUDOKU_DONE) && marked(mark, step)
        && memcmp(line, expected, LINE) == 0 && INTACT(line) && work_cleared(sizes) && as_kept(&before, 1) && INTACT(lines)
        && INTACT(rows) && INTACT(columns);
}

/* From the last refusal of the list up: each is given though those after it fit too. Then each length alone. */
static void one_refusals(void)
{
    struct sizes sizes = right;

    CHECK(one_refused(sizes, COUNT, LINE, SUDOKU_NUMBER));
    CHECK(one_refused(sizes, (size_t)-1, LINE, SUDOKU_NUMBER));
    CHECK(one_refused(sizes, COUNT, LINE - 1, SUDOKU_BUFFER));
    sizes.marks++;
    CHECK(one_refused(sizes, COUNT, LINE - 1, SUDOKU_BUFFER));
    sizes.out--;
    CHECK(one_refused(sizes, COUNT, LINE - 1, SUDOKU_BUFFER));
    sizes.column_out--;
    CHECK(one_refused(sizes, COUNT, LINE - 1, SUDOKU_TABLE));
    sizes.row_out++;
    CHECK(one_refused(sizes, COUNT, LINE - 1, SUDOKU_TABLE));
    sizes.column_table = LINE;
    CHECK(one_refused(sizes, COUNT, LINE - 1, SUDOKU_TABLE));
    sizes.row_table = 0;
    CHECK(one_refused(sizes, COUNT, LINE - 1, SUDOKU_TABLE));
    sizes.lines = 0;
    CHECK(one_refused(sizes, COUNT, LINE - 1, SUDOKU_LINES));
    sizes.rows = 513;
    CHECK(one_refused(sizes, COUNT, LINE - 1, SUDOKU_SIDES));
    sizes.rows = ROWS;
    sizes.columns = 1;
    CHECK(one_refused(sizes, COUNT, LINE - 1, SUDOKU_SIDES));

    CHECK(one_refused(right, 0, LINE - 1, SUDOKU_BUFFER) && one_refused(right, 0, LINE + 1, SUDOKU_BUFFER));
    CHECK(one_refused(right, 0, 0, SUDOKU_BUFFER));
#define REFUSED_ALONE(length, answer)                                        \
    do {                                                                     \
        struct sizes one = right;                                            \
        one.length++;                                                        \
        CHECK(one_refused(one, 0, LINE, answer));                            \
        one.length -= 2;                                                     \
        CHECK(one_refused(one, 0, LINE, answer));                            \
    } while (0)
    REFUSED_ALONE(lines, SUDOKU_LINES);
    REFUSED_ALONE(row_table, SUDOKU_TABLE);
    REFUSED_ALONE(column_table, SUDOKU_TABLE);
    REFUSED_ALONE(row_out, SUDOKU_TABLE);
    REFUSED_ALONE(column_out, SUDOKU_TABLE);
    REFUSED_ALONE(out, SUDOKU_BUFFER);
    REFUSED_ALONE(marks, SUDOKU_BUFFER);
}

/*
 * Document 01's samples, one line at a time: a 2 by 2 store of zero lines. Each is hurt in its first byte alone, 3 at places 0 and 1,
 * 12 at 2 and 3. Its line comes back as zeros, or as found where the mark is 4.
 */
static void one_of_four(void)
{
    static const struct sizes four = {2, 2, 4 * LINE, 2 * LINE, 2 * LINE, 4 * LINE, 4, 2 * LINE, 2 * LINE};
    static const uint8_t line_511[7] = {0x80, 0xC7, 0x6F, 0x66, 0x56, 0x09, 0x00}, zero[LINE] = {0};
    static const struct {
        uint8_t hurt[4], steps[4], marks[4];
    } samples[] = {
        {{0, 0, 0, 0}, {1, 1, 1, 1}, {0, 0, 0, 0}},
        {{1, 0, 0, 8}, {1, 1, 1, 1}, {1, 0, 0, 1}},
        {{3, 0, 0, 0}, {2, 1, 1, 1}, {3, 0, 0, 0}},
        {{3, 12, 0, 0}, {2, 2, 1, 1}, {2, 2, 0, 0}},
        /* The mismatch of their row is empty: the columns rebuild them. */
        {{3, 3, 0, 0}, {3, 3, 1, 1}, {3, 3, 0, 0}},
        {{3, 3, 3, 0}, {3, 3, 2, 1}, {3, 3, 3, 0}},
        {{3, 3, 3, 3}, {3, 3, 3, 3}, {4, 4, 4, 4}},
    };
    static struct store before;

    keep(&before);
    memset(rows, 0, 2 * LINE);
    memset(columns, 0, 2 * LINE);
    for (size_t i = 0; i < sizeof samples / sizeof samples[0]; i++) {
        memset(lines, 0, 4 * LINE);
        for (size_t n = 0; n < 4; n++)
            lines[n * LINE] = samples[i].hurt[n];
        for (size_t n = 0; n < 4; n++) {
            const int faulty = samples[i].marks[n] == SUDOKU_MARK_FAULTY;

            CHECK(gives(four, n, samples[i].steps[n], samples[i].marks[n], faulty ? lines + n * LINE : zero));
        }
    }
    /* Another correct line in line 0's place: repair says 12, a read of one line 0. */
    memset(lines, 0, 4 * LINE);
    memcpy(lines + 63, line_511, sizeof line_511);
    for (size_t n = 0; n < 4; n++)
        CHECK(gives(four, n, 1, SUDOKU_MARK_CLEAN, lines + n * LINE));
    put_back(&before);
}

/* Whether every line of the 2 by 3 store gives its step and mark, and is the line that repair has just given with that mark. */
static int each_gives(const uint8_t *steps, const uint8_t *expected)
{
    static uint8_t repaired[ALL], repaired_marks[COUNT];
    int all = 1;

    memcpy(repaired, out, ALL);
    memcpy(repaired_marks, marks, COUNT);
    for (size_t n = 0; n < COUNT; n++)
        all &= repaired_marks[n] == expected[n] && gives(right, n, steps[n], expected[n], repaired + n * LINE);
    return all;
}

/* Lines that their rows mend. */
static void one_by_its_row(const struct store *written)
{
    /* Line 0 is mended by trial, then line 1 is the only one left: places 10 and 20; 100, 200, 300 and 400. */
    put_back(written);
    lines[1] ^= 0x04;
    lines[2] ^= 0x10;
    lines[LINE + 12] ^= 0x10;
    lines[LINE + 25] ^= 0x01;
    lines[LINE + 37] ^= 0x10;
    lines[LINE + 50] ^= 0x01;
    CHECK(repairs(SUDOKU_DONE, 1)
          && each_gives((const uint8_t[COUNT]){2, 2, 1, 1, 1, 1}, (const uint8_t[COUNT]){2, 3, 0, 0, 0, 0}));
    /* Places 0 and 1; 1 and 5; 5 to 8. The mismatch is 0, 6, 7 and 8, and two lines are left: the row is visited once. */
    put_back(written);
    lines[0] ^= 0x03;
    lines[LINE] ^= 0x22;
    lines[2 * LINE] ^= 0xE0;
    lines[2 * LINE + 1] ^= 0x01;
    CHECK(repairs(SUDOKU_DONE, 1)
          && each_gives((const uint8_t[COUNT]){2, 3, 3, 1, 1, 1}, (const uint8_t[COUNT]){2, 3, 3, 0, 0, 0}));
    /* Each line alone: its own row rebuilds it. */
    for (size_t n = 0; n < COUNT; n++) {
        put_back(written);
        lines[n * LINE] ^= 3;
        CHECK(gives(right, n, SUDOKU_STEP_ROW, SUDOKU_MARK_REBUILT, written->lines + n * LINE));
    }
}

/* Lines of stores that end in 11 and in 12. */
static void one_beside_others(const struct store *written)
{
    /* A ring that nothing opens, and a line beside it that only its column rebuilds. */
    put_back(written);
    for (size_t n = 0; n < COUNT; n++)
        if (n % COLUMNS < 2)
            lines[n * LINE] ^= 3;
    lines[2 * LINE + 1] ^= 7;
    CHECK(repairs(SUDOKU_LEFT, 2)
          && each_gives((const uint8_t[COUNT]){3, 3, 3, 3, 3, 1}, (const uint8_t[COUNT]){4, 4, 3, 4, 4, 0}));

    /* Lines 0 and 1 are correct, but not those written; line 5 is hurt past reading: its row rebuilds it. */
    put_back(written);
    memset(lines, 0, 2 * LINE);
    lines[5 * LINE] ^= 3;
    CHECK(repairs(SUDOKU_DIFFERS, 1)
          && each_gives((const uint8_t[COUNT]){1, 1, 1, 1, 1, 2}, (const uint8_t[COUNT]){0, 0, 0, 0, 0, 3}));
    /* So is line 4, hurt alike: columns rebuild both. */
    lines[4 * LINE] ^= 3;
    CHECK(repairs(SUDOKU_DIFFERS, 1)
          && each_gives((const uint8_t[COUNT]){1, 1, 1, 1, 3, 3}, (const uint8_t[COUNT]){0, 0, 0, 0, 3, 3}));
}

/* A line whose parity lines are hurt. */
static void one_by_parity_lines(const struct store *written)
{
    /* Line 1 has row 0 and column 1. One bit of the row's parity line, and one of another line: both are used as read. */
    put_back(written);
    lines[LINE] ^= 3;
    lines[2 * LINE + 9] ^= 16;
    rows[5] ^= 1;
    CHECK(repairs(SUDOKU_DONE, 1)
          && each_gives((const uint8_t[COUNT]){1, 2, 1, 1, 1, 1}, (const uint8_t[COUNT]){0, 3, 1, 0, 0, 0}));
    /* A second bit: the row is unusable, and the column rebuilds the line. */
    rows[6] ^= 1;
    CHECK(repairs(SUDOKU_DONE, 1)
          && each_gives((const uint8_t[COUNT]){1, 3, 1, 1, 1, 1}, (const uint8_t[COUNT]){0, 3, 1, 0, 0, 0}));
    /* So is the column: the line is left. */
    columns[LINE] ^= 3;
    CHECK(repairs(SUDOKU_LEFT, 1)
          && each_gives((const uint8_t[COUNT]){1, 3, 1, 1, 1, 1}, (const uint8_t[COUNT]){0, 4, 1, 0, 0, 0}));
    put_back(written);
}

/* The damage of `repairing` and `repairing_tables`, one line at a time. */
static void one_as_repair(void)
{
    static const uint8_t alone[COUNT] = {1, 1, 1, 1, 1, 1}, clean[COUNT] = {0};
    static struct store written;

    CHECK(SUDOKU_STEP_ALONE == 1 && SUDOKU_STEP_ROW == 2 && SUDOKU_STEP_REPAIR == 3);
    keep(&written);
    CHECK(repairs(SUDOKU_DONE, 0) && each_gives(alone, clean));
    lines[0] ^= 3;
    lines[LINE] ^= 12;
    lines[2 * LINE] ^= 1;
    lines[4 * LINE + 68] ^= 1;
    lines[5 * LINE + 69] ^= 0xFE;
    CHECK(repairs(SUDOKU_DONE, 1)
          && each_gives((const uint8_t[COUNT]){2, 2, 1, 1, 1, 1}, (const uint8_t[COUNT]){2, 2, 1, 0, 1, 1}));
    one_by_its_row(&written);
    one_beside_others(&written);
    one_by_parity_lines(&written);
}

/* A forecast with these sides and lengths; its passes are the number, and its marks hold the filling before. */
static uint32_t forecast_sized(size_t r, size_t c, size_t faulty_len, size_t marks_len)
{
    FILL(marks);
    unset_number();
    return sudoku_forecast(r, c, faulty, faulty_len, marks, marks_len, number);
}

/* Whether it is refused so: nothing is written, and the passes are 0. */
static int forecast_refused(size_t r, size_t c, size_t faulty_len, size_t marks_len, uint32_t answer)
{
    return forecast_sized(r, c, faulty_len, marks_len) == answer && numbered(0) && UNTOUCHED(marks);
}

/* From the last refusal of the list up, then sides whose product is that of the lengths, or is in 64 bits. */
static void forecast_refusals(void)
{
    static const uint8_t all_faulty[COUNT] = {1, 2, 3, 4, 128, 255};
    const size_t half = (size_t)1 << (sizeof(size_t) * 4);

    FILL(faulty);
    memcpy(faulty, all_faulty, COUNT);
    CHECK(forecast_refused(ROWS, COLUMNS, COUNT, COUNT - 1, SUDOKU_BUFFER));
    CHECK(forecast_refused(ROWS, COLUMNS, COUNT, COUNT + 1, SUDOKU_BUFFER));
    CHECK(forecast_refused(ROWS, COLUMNS, COUNT - 1, COUNT, SUDOKU_BUFFER));
    CHECK(forecast_refused(ROWS, COLUMNS, COUNT + 1, COUNT, SUDOKU_BUFFER));
    CHECK(forecast_refused(ROWS, COLUMNS, COUNT + 1, COUNT - 1, SUDOKU_BUFFER));
    CHECK(forecast_refused(ROWS, COLUMNS, 0, 0, SUDOKU_BUFFER));
    CHECK(forecast_refused(1, COLUMNS, COUNT + 1, COUNT - 1, SUDOKU_SIDES));
    CHECK(forecast_refused(ROWS, 513, COUNT + 1, COUNT - 1, SUDOKU_SIDES));
    CHECK(forecast_refused(1, COUNT, COUNT, COUNT, SUDOKU_SIDES) && forecast_refused(COUNT, 1, COUNT, COUNT, SUDOKU_SIDES));
    CHECK(forecast_refused(0, 0, 0, 0, SUDOKU_SIDES) && forecast_refused(half, half, 0, 0, SUDOKU_SIDES));
    unset_number();
    CHECK(sudoku_forecast(ROWS, COLUMNS, NULL, 0, marks, COUNT, number) == SUDOKU_BUFFER && numbered(0) && UNTOUCHED(marks));
    unset_number();
    CHECK(sudoku_forecast(ROWS, COLUMNS, faulty, COUNT, NULL, 0, number) == SUDOKU_BUFFER && numbered(0));
    unset_number();
    CHECK(sudoku_forecast(513, 513, NULL, 0, NULL, 0, number) == SUDOKU_SIDES && numbered(0));
    CHECK(memcmp(faulty, all_faulty, COUNT) == 0 && INTACT(faulty));
}

/* The list in which those lines have this byte that have a mark other than 0. */
static void list_marked(uint8_t *list, const uint8_t *expected, size_t count, uint8_t byte)
{
    for (size_t n = 0; n < count; n++)
        list[n] = expected[n] == 0 ? 0 : byte;
}

/* Whether the forecast of lines with this byte is these marks, which are 0 for all others, and nothing else is written. */
static int foretells(const uint8_t *expected, uint64_t passes, uint8_t byte)
{
    uint8_t before[COUNT];

    FILL(faulty);
    list_marked(faulty, expected, COUNT, byte);
    list_marked(before, expected, COUNT, byte);
    return forecast_sized(ROWS, COLUMNS, COUNT, COUNT) == SUDOKU_DONE && numbered(passes) && memcmp(marks, expected, COUNT) == 0
        && INTACT(marks) && memcmp(faulty, before, COUNT) == 0 && INTACT(faulty);
}

/* Hurts each line that has a mark at four places where no other line is hurt: too many for a trial beside any other. */
static void hurt_apart(const uint8_t *expected)
{
    for (size_t n = 0; n < COUNT; n++)
        if (expected[n] != 0)
            lines[n * LINE + n] ^= 0x0F;
}

/* Whatever byte says that a line is faulty; and repair of such a store, where no trial takes, gives these marks and passes too. */
static void forecasting(void)
{
    static const struct {
        uint8_t marks[COUNT];
        uint64_t passes;
    } cases[] = {
        {{0, 0, 0, 0, 0, 0}, 0},
        {{0, 0, 0, 0, 0, 3}, 1},
        /* Columns rebuild a row. Where one of them has a second line, its own row rebuilds that one before. */
        {{3, 3, 3, 0, 0, 0}, 1},
        {{3, 3, 3, 0, 3, 0}, 1},
        /* Columns rebuild the two ends, and rows, which come first, can do the rest in a second pass only. */
        {{3, 3, 0, 0, 3, 3}, 2},
        /* A ring: the first pass finds nothing to rebuild, and counts. With a line beside it that a column rebuilds it is the second. */
        {{4, 4, 0, 4, 4, 0}, 1},
        {{4, 0, 4, 4, 3, 4}, 2},
        {{4, 4, 4, 4, 4, 4}, 1},
    };
    static struct store written;

    keep(&written);
    for (size_t i = 0; i < sizeof cases / sizeof cases[0]; i++) {
        const uint8_t *expected = cases[i].marks;
        unsigned right_bytes = 0;

        for (unsigned byte = 1; byte < 256; byte++)
            right_bytes += foretells(expected, cases[i].passes, (uint8_t)byte) ? 1 : 0;
        CHECK(right_bytes == 255);
        hurt_apart(expected);
        CHECK(repairs(memchr(expected, SUDOKU_MARK_FAULTY, COUNT) == NULL ? SUDOKU_DONE : SUDOKU_LEFT, cases[i].passes));
        CHECK(memcmp(marks, expected, COUNT) == 0);
        put_back(&written);
    }
}

/* Rectangles of two rows or two columns, as long as can be. */
enum { LONG = SUDOKU_GREATEST_SIDE, BOTH = 2 * LONG };

GUARDED(long_faulty, BOTH);
GUARDED(long_marks, BOTH);
static uint8_t long_expected[BOTH];

/* Whether the forecast of the lines that have a mark in the marks expected is these, and nothing else is written. */
static int foretells_long(size_t r, size_t c, uint64_t passes)
{
    static uint8_t before[BOTH];

    FILL(long_faulty);
    FILL(long_marks);
    unset_number();
    list_marked(long_faulty, long_expected, BOTH, FILLING);
    list_marked(before, long_expected, BOTH, FILLING);
    return sudoku_forecast(r, c, long_faulty, BOTH, long_marks, BOTH, number) == SUDOKU_DONE && numbered(passes)
        && memcmp(long_marks, long_expected, BOTH) == 0 && INTACT(long_marks) && memcmp(long_faulty, before, BOTH) == 0
        && INTACT(long_faulty);
}

/*
 * One of two rows is rebuilt by the columns and one of two columns by the rows, in one pass; where every line is faulty, all are left.
 * If only the last line is whole, the other of its column or its row, which has two, is rebuilt; a second pass finds nothing to do.
 */
static void forecasting_long(void)
{
    for (size_t k = 0; k < 2; k++) {
        memset(long_expected, 0, BOTH);
        memset(long_expected + k * LONG, SUDOKU_MARK_REBUILT, LONG);
        CHECK(foretells_long(2, LONG, 1));
        for (size_t n = 0; n < BOTH; n++)
            long_expected[n] = n % 2 == k ? SUDOKU_MARK_REBUILT : 0;
        CHECK(foretells_long(LONG, 2, 1));
    }
    memset(long_expected, SUDOKU_MARK_FAULTY, BOTH);
    CHECK(foretells_long(2, LONG, 1) && foretells_long(LONG, 2, 1));
    long_expected[BOTH - 1] = 0;
    long_expected[LONG - 1] = SUDOKU_MARK_REBUILT;
    CHECK(foretells_long(2, LONG, 2));
    long_expected[LONG - 1] = SUDOKU_MARK_FAULTY;
    long_expected[BOTH - 2] = SUDOKU_MARK_REBUILT;
    CHECK(foretells_long(LONG, 2, 2));
}

/* Trials save what the forecast leaves; and a line is left that it saves, where its row and its column are unusable. */
static void forecast_bounds(void)
{
    static const uint8_t ring[COUNT] = {4, 4, 0, 4, 4, 0}, tried[COUNT] = {2, 2, 0, 2, 2, 0};
    static const uint8_t one[COUNT] = {0, 3, 0, 0, 0, 0}, left[COUNT] = {0, 4, 0, 0, 0, 0};
    static struct store written;

    keep(&written);
    lines[0] ^= 3;
    lines[LINE] ^= 12;
    lines[3 * LINE] ^= 3;
    lines[4 * LINE] ^= 12;
    CHECK(repairs(SUDOKU_DONE, 1) && memcmp(marks, tried, COUNT) == 0 && foretells(ring, 1, 1));
    put_back(&written);
    lines[LINE] ^= 3;
    rows[0] ^= 3;
    columns[LINE] ^= 3;
    CHECK(repairs(SUDOKU_LEFT, 1) && memcmp(marks, left, COUNT) == 0 && foretells(one, 1, 1));
    put_back(&written);
}

/* A store of the greatest size, and all that repair writes of it. */
enum { SIDE = SUDOKU_GREATEST_SIDE, BIG = SIDE * SIDE };

static uint8_t big_lines[BIG * LINE], big_rows[SIDE * LINE], big_columns[SIDE * LINE];
static uint8_t big_out[BIG * LINE], big_marks[BIG], big_row_out[SIDE * LINE], big_column_out[SIDE * LINE];
static uint8_t big_written[BIG * LINE], big_rows_written[SIDE * LINE], big_columns_written[SIDE * LINE];
static uint8_t big_faulty[BIG];
static uint32_t big_answer;
static uint64_t big_passes;

static void big_tables(void)
{
    big_answer = sudoku_make_tables(SIDE, SIDE, big_lines, sizeof big_lines, big_rows, sizeof big_rows, big_columns,
                                    sizeof big_columns);
}

static void big_repair(void)
{
    big_answer = sudoku_repair(SIDE, SIDE, big_lines, sizeof big_lines, big_rows, sizeof big_rows, big_columns, sizeof big_columns,
                               big_out, sizeof big_out, big_marks, sizeof big_marks, big_row_out, sizeof big_row_out,
                               big_column_out, sizeof big_column_out, &big_passes);
}

static void big_change(void)
{
    static const uint8_t data[SUDOKU_DATA_BYTES] = {1};
    uint64_t ignored;

    big_answer = sudoku_change_line(SIDE, SIDE, big_lines, sizeof big_lines, big_rows, sizeof big_rows, big_columns,
                                    sizeof big_columns, BIG - 1, data, sizeof data, &ignored);
}

static void write_one(void)
{
    big_answer = sudoku_write_line(big_lines, SUDOKU_DATA_BYTES, line, LINE);
}

static void read_alone(void)
{
    uint8_t mark;

    big_answer = sudoku_read_line(big_lines, LINE, line, LINE, &mark);
}

/* The line that is wanted, its mark and the last step. */
static size_t big_n;
static uint8_t big_mark;
static uint32_t big_step;

static void big_one(void)
{
    big_answer = sudoku_read_one(SIDE, SIDE, big_lines, sizeof big_lines, big_rows, sizeof big_rows, big_columns,
                                 sizeof big_columns, big_n, big_out, sizeof big_out, big_marks, sizeof big_marks, big_row_out,
                                 sizeof big_row_out, big_column_out, sizeof big_column_out, line, LINE, &big_mark, &big_step);
}

static void big_forecast(void)
{
    big_answer = sudoku_forecast(SIDE, SIDE, big_faulty, sizeof big_faulty, big_marks, sizeof big_marks, &big_passes);
}

static void put_big_back(void)
{
    memcpy(big_lines, big_written, sizeof big_lines);
    memcpy(big_rows, big_rows_written, sizeof big_rows);
    memcpy(big_columns, big_columns_written, sizeof big_columns);
}

static int big_whole(uint64_t passes)
{
    return big_answer == SUDOKU_DONE && big_passes == passes && memcmp(big_out, big_written, sizeof big_out) == 0
        && memcmp(big_row_out, big_rows_written, sizeof big_row_out) == 0
        && memcmp(big_column_out, big_columns_written, sizeof big_column_out) == 0;
}

/* Lines to be read alone, rebuilt and mended by trial, and parity lines accepted and unusable. */
static void hurt_big(void)
{
    for (size_t n = 0; n < BIG; n += 97)
        big_lines[n * LINE + n % SUDOKU_DATA_BYTES] ^= 16;
    /* So far apart that no two of them share a row or a column; none stands in row 302. */
    for (size_t n = 0; n < BIG; n += 2003)
        big_lines[n * LINE + 64] ^= 6;
    big_lines[(302 * SIDE + 10) * LINE] ^= 3;
    big_lines[(302 * SIDE + 20) * LINE] ^= 12;
    for (size_t group = 0; group < SIDE; group += 5)
        big_rows[group * LINE + 7] ^= 3;
    for (size_t group = 0; group < SIDE; group += 3)
        big_columns[group * LINE + 9] ^= 1;
}

/* A staircase of lines hurt alike: each pass opens its two ends. */
static void chain_big(void)
{
    for (size_t i = 0; i < SIDE; i++) {
        big_lines[(i * SIDE + i) * LINE] ^= 3;
        if (i + 1 < SIDE)
            big_lines[(i * SIDE + i + 1) * LINE] ^= 3;
    }
}

/* A ring of four lines hurt alike, which nothing opens. */
static void lose_big(void)
{
    static const size_t ring[4] = {0, 1, SIDE, SIDE + 1};

    for (size_t i = 0; i < 4; i++)
        big_lines[ring[i] * LINE] ^= 3;
}

/* Writes so many lines, most of them different. */
static int write_lines(uint8_t *to, size_t count)
{
    int written = 1;

    for (size_t n = 0; n < count; n++) {
        uint8_t data[SUDOKU_DATA_BYTES];

        for (size_t i = 0; i < sizeof data; i++)
            data[i] = (uint8_t)(n * 31 + i * 7 + n / 251);
        written &= sudoku_write_line(data, sizeof data, to + n * LINE, LINE) == SUDOKU_DONE;
    }
    return written;
}

static void make_big(void)
{
    const int written = write_lines(big_lines, BIG);

    big_tables();
    CHECK(written && big_answer == SUDOKU_DONE);
    memcpy(big_written, big_lines, sizeof big_written);
    memcpy(big_rows_written, big_rows, sizeof big_rows_written);
    memcpy(big_columns_written, big_columns, sizeof big_columns_written);
}

/* A wear report and an order that is returned, between guards. */
enum { NUMBERS = SUDOKU_WEAR_NUMBERS };

static uint64_t wear_all[3 * NUMBERS];
static uint64_t *const wear = wear_all + NUMBERS;
static uint32_t order_all[3];

static void set_wear(const uint64_t *numbers)
{
    for (size_t i = 0; i < 3 * NUMBERS; i++)
        wear_all[i] = UNSET;
    memcpy(wear, numbers, NUMBERS * sizeof *wear);
}

/* Whether the report is these numbers, and nothing beside it was written. */
static int wear_is(const uint64_t *numbers)
{
    for (size_t i = 0; i < NUMBERS; i++)
        if (wear_all[i] != UNSET || wear[i] != numbers[i] || wear[NUMBERS + i] != UNSET)
            return 0;
    return 1;
}

/* Whether adding a result to a report gives this answer, and the report `after`. */
static int adds(const uint64_t *before, const uint8_t *of, size_t count, uint32_t answer, uint32_t expected, const uint64_t *after)
{
    set_wear(before);
    return sudoku_wear_add(wear, NUMBERS, of, count, answer) == expected && wear_is(after);
}

/* Whether it is refused with 15, and leaves the report as it was. */
static int not_added(const uint64_t *before, const uint8_t *of, size_t count, uint32_t answer)
{
    return adds(before, of, count, answer, SUDOKU_WEAR, before);
}

/* Whether comparing reports of these lengths gives this answer and order, and nothing beside the order is written. */
static int compares(const uint64_t *a, size_t a_len, const uint64_t *b, size_t b_len, uint32_t answer, uint32_t order)
{
    order_all[0] = order_all[1] = order_all[2] = (uint32_t)UNSET;
    return sudoku_wear_compare(a, a_len, b, b_len, order_all + 1) == answer && order_all[0] == (uint32_t)UNSET
        && order_all[1] == order && order_all[2] == (uint32_t)UNSET;
}

/* Whether the first share is smaller, from both sides. */
static int is_less(const uint64_t *less, const uint64_t *more)
{
    return compares(less, NUMBERS, more, NUMBERS, SUDOKU_DONE, SUDOKU_ORDER_LESS)
        && compares(more, NUMBERS, less, NUMBERS, SUDOKU_DONE, SUDOKU_ORDER_GREATER);
}

static int are_equal(const uint64_t *a, const uint64_t *b)
{
    return compares(a, NUMBERS, b, NUMBERS, SUDOKU_DONE, SUDOKU_ORDER_EQUAL)
        && compares(b, NUMBERS, a, NUMBERS, SUDOKU_DONE, SUDOKU_ORDER_EQUAL);
}

/* The empty report; one of three stores; one that has all stores and lines that it can have. */
#define STORES SUDOKU_WEAR_MOST_STORES
#define MOST SUDOKU_WEAR_MOST_LINES
#define ALL_LINES ((uint64_t)STORES * MOST)

static const uint64_t empty[NUMBERS] = {0}, three[NUMBERS] = {3, 15, 3, 3, 3, 3, 3, 1, 1, 1};
static const uint64_t full[NUMBERS] = {STORES, ALL_LINES, ALL_LINES - 1, 0, 0, 1, 0, STORES, 0, 0};
static const uint8_t each[5] = {0, 1, 2, 3, 4};

/* Results of every answer, and those of two repairs: one that is done, and one that is refused. */
static void wear_adding(void)
{
    static struct store written;
    struct sizes sizes = right;
    uint64_t passes;

    CHECK(SUDOKU_WEAR_STORES == 0 && SUDOKU_WEAR_LINES == 1 && SUDOKU_WEAR_CLEAN == 2 && SUDOKU_WEAR_REWRITTEN == 3);
    CHECK(SUDOKU_WEAR_TRIAL == 4 && SUDOKU_WEAR_REBUILT == 5 && SUDOKU_WEAR_FAULTY == 6);
    CHECK(SUDOKU_WEAR_DONE == 7 && SUDOKU_WEAR_LEFT == 8 && SUDOKU_WEAR_DIFFERS == 9 && SUDOKU_WEAR == 15);
    CHECK(adds(empty, each, 5, SUDOKU_DONE, SUDOKU_DONE, (const uint64_t[NUMBERS]){1, 5, 1, 1, 1, 1, 1, 1, 0, 0}));
    CHECK(sudoku_wear_add(wear, NUMBERS, each, 5, SUDOKU_LEFT) == SUDOKU_DONE);
    CHECK(sudoku_wear_add(wear, NUMBERS, each, 5, SUDOKU_DIFFERS) == SUDOKU_DONE && wear_is(three));

    keep(&written);
    lines[0] ^= 3;
    lines[LINE] ^= 12;
    lines[2 * LINE] ^= 1;
    lines[5 * LINE] ^= 3;
    CHECK(repairs(SUDOKU_DONE, 1));
    CHECK(adds(three, marks, COUNT, SUDOKU_DONE, SUDOKU_DONE, (const uint64_t[NUMBERS]){4, 21, 5, 4, 5, 4, 3, 2, 1, 1}));
    CHECK(INTACT(marks));
    sizes.out--;
    CHECK(not_added(three, marks, COUNT, repair_sized(sizes, &passes)));
    put_back(&written);
}

/* Another length is 7, whatever else is wrong; then each thing that 15 is given for. */
static void wear_refusals(void)
{
    set_wear(empty);
    CHECK(sudoku_wear_add(NULL, 0, each, 5, SUDOKU_DONE) == SUDOKU_BUFFER);
    CHECK(sudoku_wear_add(wear, NUMBERS - 1, each, 5, SUDOKU_DONE) == SUDOKU_BUFFER);
    CHECK(sudoku_wear_add(wear, NUMBERS + 1, NULL, 0, 9) == SUDOKU_BUFFER && wear_is(empty));

    CHECK(not_added(three, NULL, 0, SUDOKU_DONE) && not_added(three, each, 3, SUDOKU_DONE));
    CHECK(not_added(three, (const uint8_t[4]){0, 0, 0, 5}, 4, SUDOKU_DONE));
    CHECK(not_added(three, (const uint8_t[4]){255, 0, 0, 0}, 4, SUDOKU_LEFT));
    for (uint32_t answer = 1; answer < 300; answer++)
        if (answer != SUDOKU_LEFT && answer != SUDOKU_DIFFERS)
            CHECK(not_added(three, each, 5, answer));
    CHECK(not_added(full, each, 5, SUDOKU_DONE));
    /* Sums that are right in 64 bits alone. */
    CHECK(not_added((const uint64_t[NUMBERS]){1, 4, UINT64_MAX, 0, 0, 0, 5, 1, 0, 0}, each, 5, SUDOKU_DONE));
    CHECK(not_added((const uint64_t[NUMBERS]){1, 4, 4, 0, 0, 0, 0, UINT64_MAX, 0, 2}, each, 5, SUDOKU_DONE));
    for (size_t place = 0; place < NUMBERS; place++)
        for (size_t way = 0; way < 3; way++) {
            uint64_t wrong[NUMBERS];

            memcpy(wrong, three, sizeof wrong);
            wrong[place] = way == 0 ? UINT64_MAX : way == 1 ? wrong[place] + 1 : wrong[place] - 1;
            CHECK(not_added(wrong, each, 5, SUDOKU_DONE));
            CHECK(compares(wrong, NUMBERS, three, NUMBERS, SUDOKU_WEAR, 0));
            CHECK(compares(empty, NUMBERS, wrong, NUMBERS, SUDOKU_WEAR, 0));
            CHECK(compares(wrong, NUMBERS, three, NUMBERS - 1, SUDOKU_BUFFER, 0));
        }
    CHECK(compares(NULL, 0, full, NUMBERS, SUDOKU_BUFFER, 0) && compares(full, NUMBERS, NULL, 0, SUDOKU_BUFFER, 0));
    CHECK(compares(full, NUMBERS + 1, full, NUMBERS, SUDOKU_BUFFER, 0) && compares(full, NUMBERS, full, 9, SUDOKU_BUFFER, 0));
}

/* The greatest result that is taken in makes the greatest report; one mark more, and one line or store more, are refused. */
static void wear_limits(void)
{
    const uint64_t rest = ALL_LINES - MOST, last[NUMBERS] = {STORES - 1, rest, rest, 0, 0, 0, 0, STORES - 1, 0, 0};
    const uint64_t filled[NUMBERS] = {STORES, ALL_LINES, rest, 0, 0, MOST, 0, STORES - 1, 1, 0};
    const uint64_t more_lines[NUMBERS] = {1, MOST + 1, MOST + 1, 0, 0, 0, 0, 1, 0, 0};
    const uint64_t more_stores[NUMBERS] = {STORES + 1, 4, 4, 0, 0, 0, 0, STORES + 1, 0, 0};

    memset(big_out, SUDOKU_MARK_REBUILT, MOST + 1);
    CHECK(adds(last, big_out, MOST, SUDOKU_LEFT, SUDOKU_DONE, filled));
    CHECK(not_added(last, big_out, MOST + 1, SUDOKU_LEFT));
    big_out[MOST - 1] = 5;
    CHECK(not_added(last, big_out, MOST, SUDOKU_LEFT) && not_added(filled, each, 5, SUDOKU_DONE));
    CHECK(not_added(more_lines, each, 5, SUDOKU_DONE) && not_added(more_stores, each, 5, SUDOKU_DONE));
    CHECK(are_equal(filled, filled) && compares(more_lines, NUMBERS, empty, NUMBERS, SUDOKU_WEAR, 0));
    CHECK(compares(empty, NUMBERS, more_stores, NUMBERS, SUDOKU_WEAR, 0));
}

/* Shares: none of no lines, equal ones of other numbers, two as near as can be, and two whose products 64 bits would turn round. */
static void wear_comparing(void)
{
    const uint64_t lines_41 = (uint64_t)1 << 41, half = lines_41 / 2;
    const uint64_t nearly[NUMBERS] = {STORES, ALL_LINES - 1, 0, 1, 0, ALL_LINES - 2, 0, 0, STORES, 0};
    const uint64_t next[NUMBERS] = {STORES, ALL_LINES, 0, 0, 1, ALL_LINES - 1, 0, 0, 0, STORES};

    CHECK(SUDOKU_ORDER_EQUAL == 0 && SUDOKU_ORDER_LESS == 1 && SUDOKU_ORDER_GREATER == 2);
    CHECK(are_equal(empty, empty) && are_equal(empty, (const uint64_t[NUMBERS]){1, 4, 4, 0, 0, 0, 0, 1, 0, 0}));
    CHECK(is_less(empty, full) && is_less(full, three));
    CHECK(are_equal(three, (const uint64_t[NUMBERS]){1, 10, 0, 0, 8, 2, 0, 0, 1, 0}));
    CHECK(is_less(nearly, next) && is_less(next, (const uint64_t[NUMBERS]){1, 4, 0, 0, 0, 4, 0, 1, 0, 0}));
    CHECK(is_less((const uint64_t[NUMBERS]){STORES, lines_41, lines_41 - 1, 0, 0, 1, 0, STORES, 0, 0},
                  (const uint64_t[NUMBERS]){STORES, lines_41, half, 0, 0, half, 0, STORES, 0, 0}));
}

static void add_big(void)
{
    set_wear(empty);
    big_answer = sudoku_wear_add(wear, NUMBERS, big_marks, sizeof big_marks, SUDOKU_DONE);
}

static void compare_big(void)
{
    big_answer = compares(full, NUMBERS, full, NUMBERS, SUDOKU_DONE, SUDOKU_ORDER_EQUAL) ? SUDOKU_DONE : SUDOKU_WEAR;
}

/* That a depth is told: so many bytes of an array, and little more. */
enum { DEEP = 20000 };

static void touch_deep(void)
{
    volatile uint8_t array[DEEP];

    for (size_t i = 0; i < DEEP; i++)
        array[i] = (uint8_t)i;
    big_answer = array[DEEP - 1];
}

/* What repair and a read of one line took of their stack at most; and what a forecast may take. */
static size_t repair_depth, one_depth;

enum { FORECAST_STACK = 4 * 1024 };

static int fits(void (*call)(void), size_t *most)
{
    const size_t depth = depth_of(call);

    if (depth > *most)
        *most = depth;
    return 0 < depth && depth < REPAIR_STACK;
}

static int repair_fits(void)
{
    return fits(big_repair, &repair_depth);
}

/* Whether a read of line n fits too, gives the line written, or as found where its mark is 4, and clears all that it works in. */
static int one_fits(size_t n, uint32_t step, uint8_t mark)
{
    const int faulty = mark == SUDOKU_MARK_FAULTY;

    big_n = n;
    memset(big_out, FILLING, sizeof big_out);
    memset(big_marks, FILLING, sizeof big_marks);
    memset(big_row_out, FILLING, sizeof big_row_out);
    memset(big_column_out, FILLING, sizeof big_column_out);
    return fits(big_one, &one_depth) && big_answer == (faulty ? SUDOKU_LEFT : SUDOKU_DONE) && big_step == step && big_mark == mark
        && memcmp(line, (faulty ? big_lines : big_written) + n * LINE, LINE) == 0 && all_equal(big_out, sizeof big_out, 0)
        && all_equal(big_marks, sizeof big_marks, 0) && all_equal(big_row_out, sizeof big_row_out, 0)
        && all_equal(big_column_out, sizeof big_column_out, 0);
}

/* The lines of `chain_big`, as a list. */
static void list_chain(void)
{
    memset(big_faulty, 0, sizeof big_faulty);
    for (size_t i = 0; i < SIDE; i++)
        big_faulty[i * SIDE + i] = big_faulty[i * SIDE + i + (i + 1 < SIDE)] = 1;
}

/* Whether a forecast of the list fits into its stack and has so many passes, and all lines of the list have this mark. */
static int forecast_fits(uint64_t passes, uint8_t mark)
{
    int fits_so = takes_less(big_forecast, FORECAST_STACK) && big_answer == SUDOKU_DONE && big_passes == passes;

    for (size_t n = 0; n < BIG; n++)
        fits_so &= big_marks[n] == (big_faulty[n] == 0 ? SUDOKU_MARK_CLEAN : mark);
    return fits_so;
}

/* What all calls take that no repair is part of. */
static void other_depths(void)
{
    CHECK(takes_less(big_tables, 110 * 1024) && big_answer == SUDOKU_DONE);
    CHECK(takes_less(big_change, 2 * 1024) && big_answer == SUDOKU_DONE);
    CHECK(takes_less(read_alone, 2 * 1024) && big_answer == SUDOKU_DONE);
    CHECK(takes_less(write_one, 2 * 1024) && big_answer == SUDOKU_DONE);
    list_chain();
    CHECK(forecast_fits(SIDE / 2, SUDOKU_MARK_REBUILT));
    memset(big_faulty, FILLING, sizeof big_faulty);
    CHECK(forecast_fits(1, SUDOKU_MARK_FAULTY));
    CHECK(takes_less(add_big, 2 * 1024) && big_answer == SUDOKU_DONE);
    CHECK(takes_less(compare_big, 2 * 1024) && big_answer == SUDOKU_DONE);
}

static void stack_depths(void)
{
    size_t depth;

    CHECK(make_stack());
    if (stack_made == NULL || stack_seen == NULL)
        return;
    depth = depth_of(touch_deep);
    CHECK(DEEP <= depth && depth < DEEP + 512);
    make_big();

    CHECK(repair_fits() && big_whole(0));
    CHECK(one_fits(BIG - 1, SUDOKU_STEP_ALONE, SUDOKU_MARK_CLEAN));
    hurt_big();
    CHECK(repair_fits() && big_whole(1) && big_marks[302 * SIDE + 10] == SUDOKU_MARK_TRIAL);
    CHECK(one_fits(97, SUDOKU_STEP_ALONE, SUDOKU_MARK_REWRITTEN));
    CHECK(one_fits(302 * SIDE + 10, SUDOKU_STEP_ROW, SUDOKU_MARK_TRIAL));
    CHECK(one_fits(2003, SUDOKU_STEP_ROW, SUDOKU_MARK_REBUILT));
    /* Row 0 is unusable. */
    CHECK(one_fits(0, SUDOKU_STEP_REPAIR, SUDOKU_MARK_REBUILT));
    put_big_back();
    chain_big();
    CHECK(repair_fits() && big_whole(SIDE / 2) && big_marks[0] == SUDOKU_MARK_REBUILT);
    CHECK(one_fits(SIDE / 2 * (SIDE + 1), SUDOKU_STEP_REPAIR, SUDOKU_MARK_REBUILT));
    CHECK(runs_within(big_one, REPAIR_STACK) && big_answer == SUDOKU_DONE && big_step == SUDOKU_STEP_REPAIR);
    put_big_back();
    lose_big();
    CHECK(repair_fits() && big_answer == SUDOKU_LEFT && big_passes == 1 && big_marks[SIDE + 1] == SUDOKU_MARK_FAULTY);
    CHECK(runs_within(big_repair, REPAIR_STACK) && big_answer == SUDOKU_LEFT);
    CHECK(one_fits(SIDE + 1, SUDOKU_STEP_REPAIR, SUDOKU_MARK_FAULTY));
    CHECK(runs_within(big_one, REPAIR_STACK) && big_answer == SUDOKU_LEFT && big_step == SUDOKU_STEP_REPAIR);
    put_big_back();
    other_depths();
}

/*
 * What a read of one line looks at. Lines and tables stand in pages of their own, and all those are hidden in which its step may look
 * at nothing: a call that touches one is stopped. A child process makes the call, so that the checks go on where it is.
 */
enum { WIDE_ROWS = 3, WIDE = 128, WIDE_COUNT = WIDE_ROWS * WIDE, WANTED = WIDE + WIDE / 2 };

/* Lines, row table and column table. */
enum { PARTS = 3 };

static const size_t part_bytes[PARTS] = {WIDE_COUNT * LINE, WIDE_ROWS * LINE, WIDE * LINE};
static uint8_t wide_lines[WIDE_COUNT * LINE], wide_rows[WIDE_ROWS * LINE], wide_columns[WIDE * LINE], wide_hurt[WIDE_COUNT * LINE];
static const uint8_t *const parts[PARTS] = {wide_hurt, wide_rows, wide_columns};
static uint8_t *part_pages[PARTS];

/* The bytes of each part that a step may look at: none at all, the line, its row with its parity line, everything. */
static const struct range {
    size_t first, end;
} seen_by[4][PARTS] = {
    {{0, 0}, {0, 0}, {0, 0}},
    {{WANTED * LINE, (WANTED + 1) * LINE}, {0, 0}, {0, 0}},
    {{WIDE * LINE, 2 * WIDE * LINE}, {LINE, 2 * LINE}, {0, 0}},
    {{0, WIDE_COUNT * LINE}, {0, WIDE_ROWS * LINE}, {0, WIDE * LINE}},
};

/* How a child ends. */
enum { RIGHT, WRONG, STOPPED };

static size_t page_bytes(void)
{
    return (size_t)sysconf(_SC_PAGESIZE);
}

/* Room for a part wherever in its first page it starts. */
static size_t room_for(size_t part)
{
    return (part_bytes[part] / page_bytes() + 2) * page_bytes();
}

static int make_parts(void)
{
    for (size_t part = 0; part < PARTS; part++) {
        FILE *file = file_of(room_for(part));

        if (file == NULL)
            return 0;
        part_pages[part] = mapped(file, room_for(part));
        fclose(file);
        if (part_pages[part] == NULL)
            return 0;
    }
    return write_lines(wide_lines, WIDE_COUNT)
        && sudoku_make_tables(WIDE_ROWS, WIDE, wide_lines, sizeof wide_lines, wide_rows, sizeof wide_rows, wide_columns,
                              sizeof wide_columns) == SUDOKU_DONE;
}

/*
 * Puts a part into its pages and hides those without a byte of the range. The range starts with a page, or ends with one: the byte
 * before it is hidden once, and once the byte after it. Gives where the part stands.
 */
static const uint8_t *hide_but(size_t part, struct range range, int at_end)
{
    const size_t page = page_bytes(), edge = at_end ? range.end : range.first;
    const size_t start = (page - edge % page) % page;
    const size_t first = (start + range.first) / page * page, end = (start + range.end + page - 1) / page * page;
    uint8_t *const pages = part_pages[part];

    memcpy(pages + start, parts[part], part_bytes[part]);
    if (mprotect(pages, room_for(part), PROT_NONE) != 0)
        return NULL;
    if (range.first < range.end && mprotect(pages + first, end - first, PROT_READ) != 0)
        return NULL;
    return pages + start;
}

/* A line that is wanted: the bits flipped in its first byte and in that of its row's last line, and what it comes to. */
struct wanted {
    uint8_t flipped, beside, step, mark;
};

/* What a child does: it reads the line, with only that shown which the step `shown` may look at. */
static int read_hidden(struct wanted wanted, size_t shown, int at_end)
{
    const uint8_t *at[PARTS];
    uint8_t mark = FILLING;
    uint32_t step = (uint32_t)UNSET, answer;

    for (size_t part = 0; part < PARTS; part++) {
        at[part] = hide_but(part, seen_by[shown][part], at_end);
        if (at[part] == NULL)
            return WRONG;
    }
    answer = sudoku_read_one(WIDE_ROWS, WIDE, at[0], part_bytes[0], at[1], part_bytes[1], at[2], part_bytes[2], WANTED, big_out,
                             part_bytes[0], big_marks, WIDE_COUNT, big_row_out, part_bytes[1], big_column_out, part_bytes[2],
                             line, LINE, &mark, &step);
    if (answer != SUDOKU_DONE || step != wanted.step || mark != wanted.mark)
        return WRONG;
    return memcmp(line, wide_lines + WANTED * LINE, LINE) == 0 ? RIGHT : WRONG;
}

static void stopped(int number)
{
    (void)number;
    _exit(STOPPED);
}

/* How a child ends that reads the line so; -1 if it ends otherwise or could not be made. */
static int child_ends(struct wanted wanted, size_t shown, int at_end)
{
    int status = 0;
    pid_t child;

    memcpy(wide_hurt, wide_lines, sizeof wide_hurt);
    wide_hurt[WANTED * LINE] ^= wanted.flipped;
    wide_hurt[(2 * WIDE - 1) * LINE] ^= wanted.beside;
    child = fork();
    if (child == 0)
        _exit(signal(SIGSEGV, stopped) == SIG_ERR ? WRONG : read_hidden(wanted, shown, at_end));
    return child > 0 && waitpid(child, &status, 0) == child && WIFEXITED(status) ? WEXITSTATUS(status) : -1;
}

/* Whether valgrind runs this program: it would report why a child is stopped, and end it with a status of its own. */
static int watched(void)
{
    const char *loaded = getenv("LD_PRELOAD");

    return loaded != NULL && strstr(loaded, "vgpreload") != NULL;
}

static void one_looks_at(void)
{
    static const struct wanted all[] = {
        {0, 0, SUDOKU_STEP_ALONE, SUDOKU_MARK_CLEAN},
        {1, 3, SUDOKU_STEP_ALONE, SUDOKU_MARK_REWRITTEN},
        {3, 0, SUDOKU_STEP_ROW, SUDOKU_MARK_REBUILT},
        {3, 12, SUDOKU_STEP_ROW, SUDOKU_MARK_TRIAL},
        {3, 3, SUDOKU_STEP_REPAIR, SUDOKU_MARK_REBUILT},
    };
    const int made = make_parts();

    CHECK(made);
    for (size_t i = 0; made && i < sizeof all / sizeof all[0]; i++)
        for (int at_end = 0; at_end < 2; at_end++) {
            CHECK(child_ends(all[i], all[i].step, at_end) == RIGHT);
            /* What the step before may look at is too little: so the pages are hidden indeed. */
            if (!watched())
                CHECK(child_ends(all[i], all[i].step - 1u, at_end) == STOPPED);
        }
}

int main(void)
{
    FILL(line);
    FILL(lines);
    FILL(rows);
    FILL(columns);
    fill_written();
    writing();
    reading();
    reading_hamming_bits();
    tables();
    changing();
    bad_parity();
    repair_refusals();
    repairing();
    repairing_tables();
    one_refusals();
    one_of_four();
    one_as_repair();
    one_looks_at();
    forecast_refusals();
    forecasting();
    forecasting_long();
    forecast_bounds();
    wear_adding();
    wear_refusals();
    wear_limits();
    wear_comparing();
    stack_depths();
    printf("C interface: %d checks, %d failed; repair took %lu bytes of stack, a read of one line %lu\n", checks, failures,
           (unsigned long)repair_depth, (unsigned long)one_depth);
    return failures == 0 ? 0 : 1;
}
