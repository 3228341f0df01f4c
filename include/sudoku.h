/*
 * The caption store: lines of 70 bytes in a rectangle with parity lines, after the SuDoku scheme.
 *
 * Link with libsudoku.a, which `bin/install PREFIX` puts into PREFIX/lib, or with the same archive in the repository, libcapi.a, which
 * `bin/library` writes to target/staticlib (x86-64 Linux). Each of its functions, the first thirteen below, is proved to give,
 * for any input, the answer, the values and every byte of every writable buffer that the store's rules ask for. The functions after
 * them, on a struct sudoku_store, only hand over to these; they and the words for answers and marks are compiled with the caller, and
 * are tested.
 *
 * A line holds 64 bytes of data, a check (BCH, 31 bits) and ten bits that find one damaged bit (Hamming). Seven bits of it are
 * spare: bit 7 of byte 67 and bits 2 to 7 of byte 69. They are written 0 and ignored when read. Rows and columns are each 2 to
 * 512. Line n has row n / columns and column n % columns, and stands at byte 70 * n. The row table holds a parity line for each
 * row, the column table one for each column: the exclusive or of that row's or column's lines. A store file is a header of 28 bytes,
 * which names the sides and the three parts, and then lines, row table and column table without gaps.
 *
 * What a caller owes, since no function can test it:
 * - The length after a pointer is the buffer's true length: so many bytes, or numbers of a wear report, may be read, and written
 *   where they are not const. Any true length may be handed in; one that the call cannot use is refused. A null pointer goes with
 *   length 0 only. Where a call takes a struct sudoku_store, no length is handed in: its buffers have the lengths that its sides ask
 *   for, and the others those that the call names.
 * - `mark`, `passes`, `number`, `step`, `order`, `layout` and `check` are not null. They are returned values: every call sets them, to 0
 *   on refusals but for three, below. No pointer to a struct sudoku_store or sudoku_one is null either.
 * - Writable buffers, these returned values among them, overlap nothing else that is handed in: `row_out` is not `row_table`, nor
 *   `column_out` `column_table`, which repair reads to the end; `line` is no line of `lines` or `out`; the `marks` of a forecast are
 *   not its `faulty`; the store that a repair writes is not the one that it reads. Buffers that are only read may overlap each other.
 * - Callers of sudoku_change_line and sudoku_repair are compiled with this header. Earlier ones had fewer or other parameters: a
 *   call compiled with one of them still links, and then bytes are written to places that the caller never named.
 * - Repair needs less than 48 kB of stack, and so do sudoku_read_one, which may run it, and
 *   sudoku_check_file, which does; making tables needs about 110 kB, whatever the size of the rectangle; sudoku_forecast less than
 *   4 kB (about 2 kB of it counts of faulty lines); the other calls less than 2 kB.
 *
 * What a caller should know:
 * - After a refusal (any answer but 0, 11 and 12) the buffers are as they were: what stands in `out`, `marks` or the tables written
 *   is no result. Only sudoku_read_line's 10 writes: `out` is then the line as found. Test the answer first.
 * - After SUDOKU_LEFT (11) the lines with mark 4 are damaged, as found, and so are the parity lines that were not accepted.
 * - After SUDOKU_DIFFERS (12) trust no line: none is faulty, but some parity line that was accepted disagrees. Some line may be
 *   wrong, and nothing tells which. Parity lines made afresh agree with such lines: keep the tables that were handed in.
 * - After SUDOKU_DONE lines and tables of a repair are those written, if no line and no parity line had more than five damaged
 *   bits. What holds beyond that is in README.md.
 * - Where one caption is wanted while a show runs, sudoku_read_one gives the line as repair would, and looks at the rest of the
 *   store only where the line needs it. With answer 0 it is a correct line, and the one written if no line and no parity line had
 *   more than five damaged bits. Of other lines that are left faulty, and of lines and tables that disagree (12), only repair tells.
 * - The four buffers that sudoku_read_one borrows are no result: after 0 and 11 they hold zeros, which are a valid store of empty
 *   captions. Hand in none whose content is still needed.
 * - Where only the list of faulty lines is at hand, sudoku_forecast tells which of them rebuilding alone would leave. Lines are faulty
 *   for it if sudoku_read_line answers 10. The marks of a repair are no such list, since a line with mark 1 was accepted alone: those
 *   with 2, 3 and 4 were faulty.
 * - After SUDOKU_ROW_PARITY (13) or SUDOKU_COLUMN_PARITY (14), which only a change gives, repair the store: after 0 lines and tables
 *   agree, and any line can be changed. Or load that table anew. The row is tested first: with 13 the column's may be bad too.
 * - Lines and tables of zero bytes are a valid store, all lines and parity lines correct. Memory that was cleared cannot be told
 *   from a store of empty captions.
 * - A wear report is ten numbers, and the empty report is ten zeros. sudoku_wear_add counts every result that it is handed, the same
 *   one again too: call it once for each repair. A refused repair has no result, and adding its answer is refused with 15. What
 *   sudoku_read_one leaves is no result either, but would be taken for one: its marks are zeros. So would the marks of a forecast. Add
 *   only what sudoku_repair or sudoku_check_file gave.
 *
 * Calls keep no state and allocate nothing, so threads may call at once, each on writable buffers of its own.
 *
 * Example: a caption is stored in the bytes of a store file, two of its bits are hurt, and repair brings it back.
 *
 *     #include <stdio.h>
 *     #include <string.h>
 *     #include "sudoku.h"
 *
 *     enum { ROWS = 2, COLUMNS = 2 };
 *
 *     int main(void)
 *     {
 *         static uint8_t file[SUDOKU_FILE_BYTES(ROWS, COLUMNS)], repaired[sizeof file], marks[SUDOKU_MARKS_BYTES(ROWS, COLUMNS)];
 *         const uint8_t data[SUDOKU_DATA_BYTES] = "To be, or not to be";
 *         struct sudoku_store store, out;
 *         uint64_t passes;
 *
 *         if (sudoku_store_create(file, sizeof file, ROWS, COLUMNS, &store) != SUDOKU_DONE
 *             || sudoku_store_create(repaired, sizeof repaired, ROWS, COLUMNS, &out) != SUDOKU_DONE)
 *             return 1;
 *         for (size_t n = 0; n < sudoku_store_count(&store); n++)
 *             if (sudoku_store_write(&store, n, data) != SUDOKU_DONE)
 *                 return 1;
 *         if (sudoku_store_make_tables(&store) != SUDOKU_DONE)
 *             return 1;
 *         sudoku_store_line(&store, 3)[0] ^= 3;
 *         if (sudoku_store_repair(&store, &out, marks, &passes) != SUDOKU_DONE)
 *             return 1;
 *         printf("%.*s: %s\n", SUDOKU_DATA_BYTES, (const char *)sudoku_store_line(&out, 3), sudoku_mark_text(marks[3]));
 *         return memcmp(sudoku_store_line(&out, 3), data, sizeof data) == 0 ? 0 : 1;
 *     }
 */
#ifndef SUDOKU_H
#define SUDOKU_H

#include <stddef.h>
#include <stdint.h>

#ifdef __cplusplus
extern "C" {
#endif

#define SUDOKU_VERSION "0.1.0"
#define SUDOKU_VERSION_MAJOR 0
#define SUDOKU_VERSION_MINOR 1
#define SUDOKU_VERSION_PATCH 0

#define SUDOKU_DATA_BYTES 64
#define SUDOKU_LINE_BYTES 70
#define SUDOKU_LEAST_SIDE 2
#define SUDOKU_GREATEST_SIDE 512
#define SUDOKU_HEADER_BYTES 28

/*
 * The lengths that sides of 2 to 512 ask for: of all lines; of one table, with its own side; of the marks, or a forecast's list, with a
 * byte for each line; and of a store file. They are of type size_t, and constants where the sides are: good for the sizes of arrays.
 */
#define SUDOKU_LINES_BYTES(rows, columns) (sizeof(uint8_t) * (rows) * (columns) * SUDOKU_LINE_BYTES)
#define SUDOKU_TABLE_BYTES(side) (sizeof(uint8_t) * (side) * SUDOKU_LINE_BYTES)
#define SUDOKU_MARKS_BYTES(rows, columns) (sizeof(uint8_t) * (rows) * (columns))
#define SUDOKU_FILE_BYTES(rows, columns) \
    (SUDOKU_HEADER_BYTES + SUDOKU_LINES_BYTES(rows, columns) + SUDOKU_TABLE_BYTES(rows) + SUDOKU_TABLE_BYTES(columns))

/* A wear report: its numbers, the most stores that it counts, and the lines that a store in it may have. */
#define SUDOKU_WEAR_NUMBERS 10
#define SUDOKU_WEAR_MOST_STORES 1000000
#define SUDOKU_WEAR_LEAST_LINES 4
#define SUDOKU_WEAR_MOST_LINES 4194304

/*
 * Answers. A call gives the first that fits in this order; 0 if none does. All but 0, 11 and 12 are refusals: all buffers are as
 * they were, and a returned value is 0. Three differ: sudoku_read_line's 10, which gives the line as found and mark 4, and 13 and
 * 14, which give the number of a row or a column, counted from 0. With 11 and 12 everything is given as with 0. (Number 3 comes from
 * no call here: the program storecheck gives it, which takes sides up to 16 alone. 9 is no longer given: 13 and 14 stand in its place,
 * in a change alone, and are tested after 8 and before 10. 15 is of wear reports alone.)
 */
enum sudoku_answer {
    SUDOKU_DONE = 0,           /* done */
    SUDOKU_SHORT_FILE = 1,     /* the store file has fewer than 28 bytes */
    SUDOKU_SIDES = 2,          /* rows or columns lie outside 2 to 512 */
    SUDOKU_CONTENTS = 4,       /* the store file's contents table or its length is not the one that rows and columns require */
    SUDOKU_LINES = 5,          /* the lines handed in are not rows * columns * 70 bytes, or a single line is not 70 bytes */
    SUDOKU_TABLE = 6,          /* a table, read or written, is not 70 bytes for each of its rows or columns */
    SUDOKU_BUFFER = 7,         /* another buffer has another length: 64 for data, 70 for a line written, as each function says */
    SUDOKU_NUMBER = 8,         /* the line number is not below rows * columns */
    SUDOKU_WEAR = 15,          /* wear: numbers that are no report, one with 1,000,000 stores already, or no result of a repair */
    SUDOKU_ROW_PARITY = 13,    /* change: the parity line of its row is not a correct line (its spare bits do not count) */
    SUDOKU_COLUMN_PARITY = 14, /* change: the parity line of its column is not a correct line (likewise) */
    SUDOKU_FAULTY = 10,        /* a line to be read alone, changed or summed into tables is faulty */
    SUDOKU_LEFT = 11,          /* repair: faulty lines are left after the last pass; one line wanted: it is left faulty */
    SUDOKU_DIFFERS = 12        /* repair: no line is faulty, but an accepted parity line differs from the lines: trust none */
};

/* Marks: what became of a line. Reading alone gives 0, 1 or 4, a forecast 0, 3 or 4. */
enum sudoku_mark {
    SUDOKU_MARK_CLEAN = 0,     /* correct as found (its spare bits do not count); in a forecast: whole, as a rewritten line is too */
    SUDOKU_MARK_REWRITTEN = 1, /* accepted, and rewritten: a bit of data or check was flipped, or Hamming bits were changed */
    SUDOKU_MARK_TRIAL = 2,     /* mended by trial: one bit was flipped where the line's row or column does not sum up */
    SUDOKU_MARK_REBUILT = 3,   /* rebuilt from the parity line and the other lines of its row or column */
    SUDOKU_MARK_FAULTY = 4     /* faulty: given as found, spare bits 0 */
};

/* Steps: the last one that was taken for one line wanted. Each is taken only where those before it left the line faulty. */
enum sudoku_step {
    SUDOKU_STEP_ALONE = 1, /* the line was read alone */
    SUDOKU_STEP_ROW = 2,   /* its row was visited, as repair does */
    SUDOKU_STEP_REPAIR = 3 /* the whole rectangle was repaired */
};

/* The ten numbers of a wear report, by their places. */
enum sudoku_wear_place {
    SUDOKU_WEAR_STORES = 0,    /* stores seen */
    SUDOKU_WEAR_LINES = 1,     /* lines seen */
    SUDOKU_WEAR_CLEAN = 2,     /* lines with mark 0; mark m stands at place 2 + m */
    SUDOKU_WEAR_REWRITTEN = 3, /* mark 1 */
    SUDOKU_WEAR_TRIAL = 4,     /* mark 2 */
    SUDOKU_WEAR_REBUILT = 5,   /* mark 3 */
    SUDOKU_WEAR_FAULTY = 6,    /* mark 4 */
    SUDOKU_WEAR_DONE = 7,      /* stores with answer 0 */
    SUDOKU_WEAR_LEFT = 8,      /* answer 11 */
    SUDOKU_WEAR_DIFFERS = 9    /* answer 12 */
};

/* The order of two shares: what the first is beside the second. */
enum sudoku_order {
    SUDOKU_ORDER_EQUAL = 0,
    SUDOKU_ORDER_LESS = 1,
    SUDOKU_ORDER_GREATER = 2
};

/*
 * Writes the line of 64 data bytes into `line`, 70 bytes.
 *
 * Answers: 0; 7 if `data_len` is not 64 or `line_len` is not 70.
 */
uint32_t sudoku_write_line(const uint8_t *data, size_t data_len, uint8_t *line, size_t line_len);

/*
 * Reads one line alone into `out`, 70 bytes with spare bits 0, and sets `mark`. One damaged bit is mended, and so is any damage in
 * the ten Hamming bits alone; with any other two to six damaged bits the line is faulty.
 *
 * Answers: 0, with mark 0 if the line is correct as found and 1 if any of its bits, spare bits apart, was rewritten; 5 if `line_len`
 * is not 70; 7 if `out_len` is not 70; 10 if the line is faulty: `out` is then the line as found, spare bits 0, and the mark is 4.
 */
uint32_t sudoku_read_line(const uint8_t *line, size_t line_len, uint8_t *out, size_t out_len, uint8_t *mark);

/*
 * Makes both parity tables from the lines, each as it reads alone. The lines then count as written, right or wrong: tables made
 * anew hide what repair's 12 tells.
 *
 * Answers: 0; 2; 5; 6; 10 if any line is faulty.
 */
uint32_t sudoku_make_tables(size_t rows, size_t columns, const uint8_t *lines, size_t lines_len,
                            uint8_t *row_table, size_t row_len, uint8_t *column_table, size_t column_len);

/*
 * Writes line `n` anew from 64 data bytes and changes its two parity lines with it; no other byte changes. The old line counts
 * as it reads alone. Other lines and parity lines are not looked at: where they disagreed, they still do.
 *
 * Answers: 0; 2; 5; 6; 7 if `data_len` is not 64; 8; 13 if the parity line of the line's own row is not correct, with that row as
 * `number`; 14 if that of its own column is not, with that column as `number`; 10 if the line is faulty. With all but 13 and 14
 * `number` is 0.
 */
uint32_t sudoku_change_line(size_t rows, size_t columns, uint8_t *lines, size_t lines_len,
                            uint8_t *row_table, size_t row_len, uint8_t *column_table, size_t column_len,
                            size_t n, const uint8_t *data, size_t data_len, uint64_t *number);

/*
 * Repairs a rectangle. Every parity line is read alone first. An accepted one is used as read; a faulty one makes its row or column
 * unusable: no line is mended from it. Then every line is read alone, and those that are faulty are mended from the usable rows and
 * columns, in as many passes as it takes.
 *
 * Writes the lines into `out` (rows * columns * 70 bytes), a mark for each line into `marks` (rows * columns bytes) and both tables
 * into `row_out` and `column_out` (70 bytes for each row, and for each column), all with spare bits 0. A parity line that was
 * accepted is written as read. A faulty one is written as found if lines are left faulty (answer 11), and otherwise made afresh
 * from the lines. Sets `passes`: 0 if every line reads alone, and never more than the lines that do not. Lines and tables that are
 * handed in stay as they are. `row_out` and `column_out` serve as room to work in while repair runs: what they hold before does not
 * matter, and a refusal leaves them as they were.
 *
 * Answers: 0; 11, some lines have mark 4 and are as found; 12, trust no line; all three with lines, marks, tables and passes. 2; 5;
 * 6 if one of the four tables has another length; 7 if `out_len` or `marks_len` is another. Never 13 or 14.
 */
uint32_t sudoku_repair(size_t rows, size_t columns, const uint8_t *lines, size_t lines_len,
                       const uint8_t *row_table, size_t row_len, const uint8_t *column_table, size_t column_len,
                       uint8_t *out, size_t out_len, uint8_t *marks, size_t marks_len,
                       uint8_t *row_out, size_t row_out_len, uint8_t *column_out, size_t column_out_len, uint64_t *passes);

/*
 * Reads line `n` as repair gives it, without repairing more than it takes. The line is read alone. If it is faulty, its row is
 * visited as repair does: the row's lines and its parity line are read alone, and the line is mended by trial or rebuilt from them
 * where they suffice; if that parity line is faulty, the visit does nothing. Only if the line is faulty still, the whole rectangle is
 * repaired.
 *
 * Writes the line into `line`, 70 bytes with spare bits 0, and sets `mark` and `step`, the last step taken: 1, 2 or 3. Line and mark
 * are those that sudoku_repair gives for this line, also where that answers 11 or 12. Lines and tables that are handed in stay as
 * they are. `out`, `marks`, `row_out` and `column_out` have the lengths that repair's have and serve as room to work in: what they
 * hold before does not matter, and after 0 and 11 they are all zero. Clearing them takes time for each of their bytes, whatever the
 * step; at 512 by 512 lines that is nearly all of steps 1 and 2.
 *
 * Answers: 0; 11 exactly if this line stays faulty: `line` is then the line as found, and the mark is 4. Never 12, and not 11 for
 * other lines. 2; 5; 6 if one of the four tables has another length; 7 if `out_len` or `marks_len` is another, or `line_len` is not
 * 70; 8. With all refusals `mark` and `step` are 0.
 */
uint32_t sudoku_read_one(size_t rows, size_t columns, const uint8_t *lines, size_t lines_len,
                         const uint8_t *row_table, size_t row_len, const uint8_t *column_table, size_t column_len, size_t n,
                         uint8_t *out, size_t out_len, uint8_t *marks, size_t marks_len,
                         uint8_t *row_out, size_t row_out_len, uint8_t *column_out, size_t column_out_len,
                         uint8_t *line, size_t line_len, uint8_t *mark, uint32_t *step);

/*
 * Tells what rebuilding alone would save, without any line's bytes. `faulty` has a byte for each line: 0 if the line is whole, any other,
 * no matter which, if it is faulty after the first reading. Rows and columns are visited as repair does, in as many passes as it
 * takes, and a faulty line is rebuilt where it is the only one of its row or column. Nothing is tried, and all parity lines count as
 * usable.
 *
 * Writes a mark for each line into `marks` (rows * columns bytes): 0 whole, 3 rebuilt, 4 faulty. Those with mark 4 are the largest part
 * of the faulty lines of which no row and no column holds exactly one. Sets `passes`: 0 if no line is faulty, and never more than the
 * lines that are. A pass that rebuilds nothing is the last, and counts. `faulty` stays as it is.
 *
 * The marks are a bound. If `faulty` names every faulty line of a store, perhaps others besides, and all parity lines of that store are
 * accepted, then each line that sudoku_repair leaves with mark 4 has mark 4 here, and so there are no more of them. If it names just the
 * faulty lines and no trial takes in that repair (no line has mark 2), repair gives exactly these marks, but for a 1 where a whole line
 * was rewritten, and these passes. Trials may save more lines, in more passes or fewer: the passes are no bound. Where some parity line
 * is not accepted, repair may leave more lines faulty. With further lines named besides, the forecast leaves at least the same lines: a
 * list that names some needlessly still gives a bound. That lines and tables disagree (12) no forecast tells.
 *
 * Answers: 0, also where lines stay faulty: never 11. 2; 7 if `faulty_len` or `marks_len` is not rows * columns. With both refusals
 * `passes` is 0.
 */
uint32_t sudoku_forecast(size_t rows, size_t columns, const uint8_t *faulty, size_t faulty_len, uint8_t *marks, size_t marks_len,
                         uint64_t *passes);

/*
 * Takes one repair result into a wear report: `marks`, one for each line, and `answer`, as sudoku_repair has handed them over. `wear`
 * is ten numbers in the order of enum sudoku_wear_place; ten zeros are the empty report. Stores seen, lines seen, the lines for each
 * mark and the stores for each answer grow by this one result.
 *
 * Answers: 0; 7 if `wear_len` is not 10; 15 if the ten numbers, which may be any, are no report: the lines for each mark do not add
 * up to the lines, or the stores for each answer to the stores, or there are more than 1,000,000 stores or more than 4,194,304 lines
 * for each store; 15 also if there are 1,000,000 stores already, or the result is not 4 to 4,194,304 marks of 0 to 4 with answer 0,
 * 11 or 12. A refusal leaves the report as it was, so that a repair which was refused is counted nowhere.
 */
uint32_t sudoku_wear_add(uint64_t *wear, size_t wear_len, const uint8_t *marks, size_t marks_len, uint32_t answer);

/*
 * Compares the shares of rebuilt lines (mark 3) of two wear reports, exactly and in whole numbers. A report with no lines has share
 * zero. Sets `order`: 0 if the shares are equal, 1 if the first is smaller, 2 if it is greater. `a` and `b` may be the same: answer 0
 * then says that these numbers are a report.
 *
 * Answers: 0; 7 if `a_len` or `b_len` is not 10; 15 if one of the two is no report, as above. With both refusals `order` is 0, which
 * says nothing of the shares: test the answer first.
 */
uint32_t sudoku_wear_compare(const uint64_t *a, size_t a_len, const uint64_t *b, size_t b_len, uint32_t *order);

/*
 * A store file that opens: its sides, and its three parts, each by its offset from the file's start and its length. All 0 where the file
 * is refused.
 */
struct sudoku_layout {
    uint64_t rows, columns;
    uint64_t lines_offset, lines_bytes;
    uint64_t row_offset, row_bytes;
    uint64_t column_offset, column_bytes;
};

/*
 * Opens a store file: tells where its three parts stand. They fill it from byte 28 to its end. What they hold is not looked at.
 *
 * Answers: 0; 1 if `file_len` is below 28; 2; 4 if the contents table or `file_len` is not the one that rows and columns require.
 * With all refusals `layout` is all 0.
 */
uint32_t sudoku_open_file(const uint8_t *file, size_t file_len, struct sudoku_layout *layout);

/*
 * Writes the header of a store file with these sides into `header`, 28 bytes.
 *
 * Answers: 0; 2; 7 if `header_len` is not 28.
 */
uint32_t sudoku_write_header(size_t rows, size_t columns, uint8_t *header, size_t header_len);

/*
 * How many bytes of a store file are needed to open it or to refuse it, for a reader that has its first 28 or fewer in `start`: 28 where
 * these are refused whatever follows, otherwise one more than the file's length should be, which tells that nothing follows. A reader
 * gets no more than so many bytes, or all there are, and opens those: the answer is the whole file's. (`start` may be longer; where it
 * is a whole file that opens, 28 is given.)
 */
size_t sudoku_bytes_needed(const uint8_t *start, size_t start_len);

/* What a check of a store file found: its sides, the lines for each mark, and repair's passes. All 0 where it is refused. */
struct sudoku_check {
    uint64_t rows, columns;
    uint64_t clean, rewritten, trial, rebuilt, faulty; /* lines with marks 0 to 4 */
    uint64_t passes;
};

/*
 * Opens a store file, repairs its store and counts the marks. Lines, marks and tables are written as sudoku_repair writes them, into
 * buffers of the lengths that it asks for; the file stays as it is. Sides up to 512 are taken, where the program storecheck takes 16.
 *
 * Answers: 0, 11 and 12 as repair gives them, with lines, marks, tables and `check`. 1; 2; 4; 6 if `row_out_len` or `column_out_len` is
 * not the one that the file's sides ask for; 7 if `out_len` or `marks_len` is not. With all refusals `check` is all 0.
 */
uint32_t sudoku_check_file(const uint8_t *file, size_t file_len, uint8_t *out, size_t out_len, uint8_t *marks, size_t marks_len,
                           uint8_t *row_out, size_t row_out_len, uint8_t *column_out, size_t column_out_len,
                           struct sudoku_check *check);

/* The library writes both structs as eight numbers of 64 bits: an array of -1 bytes stops a compiler that lays them out otherwise. */
typedef char sudoku_layout_has_64_bytes[sizeof(struct sudoku_layout) == 64 && sizeof(size_t) == 8 ? 1 : -1];
typedef char sudoku_check_has_64_bytes[sizeof(struct sudoku_check) == 64 ? 1 : -1];

/*
 * A store: its sides, and where its lines and tables stand. Their lengths are those that the sides ask for: SUDOKU_LINES_BYTES(rows,
 * columns), SUDOKU_TABLE_BYTES(rows) and SUDOKU_TABLE_BYTES(columns). They may stand in one buffer that holds a store file, where
 * sudoku_store_create or sudoku_store_open find them, or in three.
 *
 * The functions on stores work out all lengths from the sides. Whatever these are, no length overflows: a store with sides outside 2
 * to 512 has no lines, and each function that answers refuses it with 2. A second store, `out` or `work`, that has other sides than the
 * first is refused with 6. Answers, refusals and what is written are otherwise those of the plain function that is called.
 */
struct sudoku_store {
    size_t rows, columns;
    uint8_t *lines, *row_table, *column_table;
};

/* One line that was read, its mark, and the last step taken for it. After 2, 6 and 8 mark and step are 0, and the line is as it was. */
struct sudoku_one {
    uint8_t line[SUDOKU_LINE_BYTES];
    uint8_t mark;
    uint32_t step;
};

/* How many lines there are, and so how many marks; 0 if a side lies outside 2 to 512. */
static inline size_t sudoku_store_count(const struct sudoku_store *store)
{
    if (store->rows < SUDOKU_LEAST_SIDE || store->rows > SUDOKU_GREATEST_SIDE || store->columns < SUDOKU_LEAST_SIDE
        || store->columns > SUDOKU_GREATEST_SIDE)
        return 0;
    return store->rows * store->columns;
}

/* The lengths of lines, row table and column table; 0 likewise. */
static inline size_t sudoku_store_lines_bytes(const struct sudoku_store *store)
{
    return SUDOKU_LINE_BYTES * sudoku_store_count(store);
}

static inline size_t sudoku_store_row_bytes(const struct sudoku_store *store)
{
    return sudoku_store_count(store) == 0 ? 0 : SUDOKU_TABLE_BYTES(store->rows);
}

static inline size_t sudoku_store_column_bytes(const struct sudoku_store *store)
{
    return sudoku_store_count(store) == 0 ? 0 : SUDOKU_TABLE_BYTES(store->columns);
}

/* Where line `n` stands, 70 bytes; null if there is no such line. It is no string: a caption of 64 bytes has no zero after it. */
static inline uint8_t *sudoku_store_line(const struct sudoku_store *store, size_t n)
{
    return n < sudoku_store_count(store) ? store->lines + n * SUDOKU_LINE_BYTES : NULL;
}

/*
 * Opens a store file in memory: `store` gets its sides and points into it, so that what is done to the store is done to the file. A
 * file in memory that may not be written can be handed in with a cast, if the store is then only read.
 *
 * Answers: 0; 1; 2; 4. With all refusals `store` has sides 0 and null pointers.
 */
static inline uint32_t sudoku_store_open(uint8_t *file, size_t file_len, struct sudoku_store *store)
{
    struct sudoku_layout layout;
    const uint32_t answer = sudoku_open_file(file, file_len, &layout);

    store->rows = layout.rows;
    store->columns = layout.columns;
    store->lines = answer == SUDOKU_DONE ? file + layout.lines_offset : NULL;
    store->row_table = answer == SUDOKU_DONE ? file + layout.row_offset : NULL;
    store->column_table = answer == SUDOKU_DONE ? file + layout.column_offset : NULL;
    return answer;
}

/*
 * Makes a store file of these sides in a buffer of SUDOKU_FILE_BYTES(rows, columns): writes its header, and opens it. Lines and tables
 * hold what the buffer held, zero bytes a whole store of empty captions. Write each line, then make the tables.
 *
 * Answers: 0; 2; 7 if `file_len` is another. With both refusals nothing is written, and `store` has sides 0 and null pointers.
 */
static inline uint32_t sudoku_store_create(uint8_t *file, size_t file_len, size_t rows, size_t columns, struct sudoku_store *store)
{
    const struct sudoku_store asked = {rows, columns, NULL, NULL, NULL}, none = {0, 0, NULL, NULL, NULL};
    const int fits = sudoku_store_count(&asked) != 0 && file_len == SUDOKU_FILE_BYTES(rows, columns);
    const uint32_t answer = sudoku_write_header(rows, columns, file, fits ? SUDOKU_HEADER_BYTES : 0);

    *store = none;
    return answer == SUDOKU_DONE ? sudoku_store_open(file, file_len, store) : answer;
}

/*
 * Writes line `n` from 64 data bytes, in a store that is being made: the tables stay as they are, and are made once all lines stand.
 * In a store that has its tables use sudoku_store_change.
 *
 * Answers: 0; 2; 8.
 */
static inline uint32_t sudoku_store_write(struct sudoku_store *store, size_t n, const uint8_t data[SUDOKU_DATA_BYTES])
{
    uint8_t *const line = sudoku_store_line(store, n);

    if (line == NULL)
        return sudoku_store_count(store) == 0 ? SUDOKU_SIDES : SUDOKU_NUMBER;
    return sudoku_write_line(data, SUDOKU_DATA_BYTES, line, SUDOKU_LINE_BYTES);
}

/*
 * Reads line `n` alone, as sudoku_read_line does; the step is 1.
 *
 * Answers: 0; 2; 8; 10 if the line is faulty: `one` then has the line as found, mark 4 and step 1.
 */
static inline uint32_t sudoku_store_read(const struct sudoku_store *store, size_t n, struct sudoku_one *one)
{
    const uint8_t *const line = sudoku_store_line(store, n);

    one->mark = 0;
    one->step = 0;
    if (line == NULL)
        return sudoku_store_count(store) == 0 ? SUDOKU_SIDES : SUDOKU_NUMBER;
    one->step = SUDOKU_STEP_ALONE;
    return sudoku_read_line(line, SUDOKU_LINE_BYTES, one->line, sizeof one->line, &one->mark);
}

/*
 * Makes both parity tables from the lines: sudoku_make_tables.
 *
 * Answers: 0; 2; 10 if any line is faulty.
 */
static inline uint32_t sudoku_store_make_tables(struct sudoku_store *store)
{
    return sudoku_make_tables(store->rows, store->columns, store->lines, sudoku_store_lines_bytes(store),
                              store->row_table, sudoku_store_row_bytes(store),
                              store->column_table, sudoku_store_column_bytes(store));
}

/*
 * Writes line `n` anew from 64 data bytes, and its two parity lines with it: sudoku_change_line.
 *
 * Answers: 0; 2; 8; 13 with the row, and 14 with the column, as `number`; 10. With all but 13 and 14 `number` is 0.
 */
static inline uint32_t sudoku_store_change(struct sudoku_store *store, size_t n, const uint8_t data[SUDOKU_DATA_BYTES],
                                           uint64_t *number)
{
    return sudoku_change_line(store->rows, store->columns, store->lines, sudoku_store_lines_bytes(store),
                              store->row_table, sudoku_store_row_bytes(store),
                              store->column_table, sudoku_store_column_bytes(store), n, data, SUDOKU_DATA_BYTES, number);
}

/*
 * Repairs a store into another of the same sides, and gives a mark for each line in `marks`, SUDOKU_MARKS_BYTES(rows, columns):
 * sudoku_repair. Where sudoku_store_create made `out`, its buffer is then the repaired store file.
 *
 * Answers: 0; 11; 12; 2; 6 if `out` has other sides.
 */
static inline uint32_t sudoku_store_repair(const struct sudoku_store *store, struct sudoku_store *out, uint8_t *marks,
                                           uint64_t *passes)
{
    return sudoku_repair(store->rows, store->columns, store->lines, sudoku_store_lines_bytes(store),
                         store->row_table, sudoku_store_row_bytes(store), store->column_table, sudoku_store_column_bytes(store),
                         out->lines, sudoku_store_lines_bytes(out), marks, sudoku_store_count(store),
                         out->row_table, sudoku_store_row_bytes(out), out->column_table, sudoku_store_column_bytes(out), passes);
}

/*
 * Reads line `n` as repair gives it, without repairing more than it takes: sudoku_read_one. `work`, a store of the same sides, and
 * `marks`, SUDOKU_MARKS_BYTES(rows, columns), are room to work in, and all zero after 0 and 11.
 *
 * Answers: 0; 11 exactly if this line stays faulty; 2; 6 if `work` has other sides; 8.
 */
static inline uint32_t sudoku_store_read_one(const struct sudoku_store *store, size_t n, struct sudoku_store *work, uint8_t *marks,
                                             struct sudoku_one *one)
{
    return sudoku_read_one(store->rows, store->columns, store->lines, sudoku_store_lines_bytes(store),
                           store->row_table, sudoku_store_row_bytes(store), store->column_table, sudoku_store_column_bytes(store), n,
                           work->lines, sudoku_store_lines_bytes(work), marks, sudoku_store_count(store),
                           work->row_table, sudoku_store_row_bytes(work), work->column_table, sudoku_store_column_bytes(work),
                           one->line, sizeof one->line, &one->mark, &one->step);
}

/*
 * Makes the list that a forecast takes, SUDOKU_MARKS_BYTES(rows, columns): 1 for each line that is faulty alone, 0 for the others.
 *
 * Answers: 0; 2.
 */
static inline uint32_t sudoku_store_list_faulty(const struct sudoku_store *store, uint8_t *faulty)
{
    const size_t count = sudoku_store_count(store);
    struct sudoku_one one;

    for (size_t n = 0; n < count; n++)
        faulty[n] = sudoku_store_read(store, n, &one) == SUDOKU_FAULTY;
    return count == 0 ? SUDOKU_SIDES : SUDOKU_DONE;
}

/*
 * Tells what rebuilding alone would save of the lines listed in `faulty`, with a mark for each line in `marks`, both
 * SUDOKU_MARKS_BYTES(rows, columns): sudoku_forecast. Of the store its sides alone are looked at: its pointers may be null.
 *
 * Answers: 0; 2.
 */
static inline uint32_t sudoku_store_forecast(const struct sudoku_store *store, const uint8_t *faulty, uint8_t *marks,
                                             uint64_t *passes)
{
    const size_t count = sudoku_store_count(store);

    return sudoku_forecast(store->rows, store->columns, faulty, count, marks, count, passes);
}

/*
 * Repairs a store file into a store of its sides and counts the marks: sudoku_check_file. `marks` has SUDOKU_MARKS_BYTES(rows, columns)
 * of `out`. sudoku_store_open tells the file's sides.
 *
 * Answers: 0; 11; 12; 1; 2 for the file's sides; 4; 6 if `out` has other sides than the file, be they 2 to 512 or not.
 */
static inline uint32_t sudoku_store_check(const uint8_t *file, size_t file_len, struct sudoku_store *out, uint8_t *marks,
                                          struct sudoku_check *check)
{
    return sudoku_check_file(file, file_len, out->lines, sudoku_store_lines_bytes(out), marks, sudoku_store_count(out),
                             out->row_table, sudoku_store_row_bytes(out), out->column_table, sudoku_store_column_bytes(out), check);
}

/*
 * Takes the marks of a store's repair and its answer into a wear report: sudoku_wear_add.
 *
 * Answers: 0; 2; 15.
 */
static inline uint32_t sudoku_store_wear(const struct sudoku_store *store, const uint8_t *marks, uint32_t answer,
                                         uint64_t wear[SUDOKU_WEAR_NUMBERS])
{
    const size_t count = sudoku_store_count(store);

    if (count == 0)
        return SUDOKU_SIDES;
    return sudoku_wear_add(wear, SUDOKU_WEAR_NUMBERS, marks, count, answer);
}

/*
 * Compares the shares of rebuilt lines of two wear reports: sudoku_wear_compare.
 *
 * Answers: 0; 15.
 */
static inline uint32_t sudoku_wear_order(const uint64_t a[SUDOKU_WEAR_NUMBERS], const uint64_t b[SUDOKU_WEAR_NUMBERS], uint32_t *order)
{
    return sudoku_wear_compare(a, SUDOKU_WEAR_NUMBERS, b, SUDOKU_WEAR_NUMBERS, order);
}

/* What an answer says, in a few words for people. */
static inline const char *sudoku_answer_text(uint32_t answer)
{
    switch (answer) {
    case SUDOKU_DONE: return "done";
    case SUDOKU_SHORT_FILE: return "the file has fewer than 28 bytes";
    case SUDOKU_SIDES: return "rows or columns lie outside 2 to 512";
    case SUDOKU_CONTENTS: return "the file's contents table or length is wrong";
    case SUDOKU_LINES: return "the lines have another length";
    case SUDOKU_TABLE: return "a table has another length";
    case SUDOKU_BUFFER: return "a buffer or the data have another length";
    case SUDOKU_NUMBER: return "there is no line of this number";
    case SUDOKU_WEAR: return "the numbers are no wear report, the report is full, or this is no result of a repair";
    case SUDOKU_ROW_PARITY: return "the parity line of the line's row is not a correct line";
    case SUDOKU_COLUMN_PARITY: return "the parity line of the line's column is not a correct line";
    case SUDOKU_FAULTY: return "a line is faulty";
    case SUDOKU_LEFT: return "faulty lines are left";
    case SUDOKU_DIFFERS: return "an accepted parity line differs from the repaired lines";
    default: return "unknown answer";
    }
}

/* A mark in one word, that of the reports. */
static inline const char *sudoku_mark_text(uint8_t mark)
{
    switch (mark) {
    case SUDOKU_MARK_CLEAN: return "clean";
    case SUDOKU_MARK_REWRITTEN: return "alone";
    case SUDOKU_MARK_TRIAL: return "trial";
    case SUDOKU_MARK_REBUILT: return "rebuilt";
    case SUDOKU_MARK_FAULTY: return "faulty";
    default: return "unknown mark";
    }
}

#ifdef __cplusplus
}
#endif

#endif
