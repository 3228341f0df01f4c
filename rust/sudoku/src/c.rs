//! The C functions of `include/sudoku.h`, each behind a safe function that
//! takes slices of any length and gives the numbers that C gives.
#![allow(unsafe_code)]

mod declared;
mod file;

pub use file::{Check, Layout, bytes_needed, check_file, open_file, write_header};

// In each call below every pointer comes from a slice or a reference together
// with its length, and exclusive references overlap nothing: that is what the
// header asks of them. What a call returns through a pointer is not 0 before,
// so that a value which it failed to set is seen.

/// Writes the line of some data; gives the answer.
#[must_use]
pub fn write_line(data: &[u8], line: &mut [u8]) -> u32 {
    // SAFETY: see above.
    unsafe { declared::sudoku_write_line(data.as_ptr(), data.len(), line.as_mut_ptr(), line.len()) }
}

/// Reads one line alone; gives the answer and the mark.
#[must_use]
pub fn read_line(line: &[u8], out: &mut [u8]) -> (u32, u8) {
    let mut mark = 0xEE;
    // SAFETY: see above.
    let answer = unsafe {
        declared::sudoku_read_line(
            line.as_ptr(),
            line.len(),
            out.as_mut_ptr(),
            out.len(),
            &mut mark,
        )
    };
    (answer, mark)
}

/// Makes both parity tables; gives the answer.
#[must_use]
pub fn make_tables(
    rows: usize,
    columns: usize,
    lines: &[u8],
    row_table: &mut [u8],
    column_table: &mut [u8],
) -> u32 {
    // SAFETY: see above.
    unsafe {
        declared::sudoku_make_tables(
            rows,
            columns,
            lines.as_ptr(),
            lines.len(),
            row_table.as_mut_ptr(),
            row_table.len(),
            column_table.as_mut_ptr(),
            column_table.len(),
        )
    }
}

/// Changes line `n` with its two parity lines; gives the answer, and the number
/// of the line's row or column if that one's parity line is bad, otherwise 0.
#[must_use]
pub fn change_line(
    rows: usize,
    columns: usize,
    lines: &mut [u8],
    row_table: &mut [u8],
    column_table: &mut [u8],
    n: usize,
    data: &[u8],
) -> (u32, u64) {
    let mut number = u64::MAX;
    // SAFETY: see above.
    let answer = unsafe {
        declared::sudoku_change_line(
            rows,
            columns,
            lines.as_mut_ptr(),
            lines.len(),
            row_table.as_mut_ptr(),
            row_table.len(),
            column_table.as_mut_ptr(),
            column_table.len(),
            n,
            data.as_ptr(),
            data.len(),
            &mut number,
        )
    };
    (answer, number)
}

/// The buffers that repair writes and that a read of one line borrows to work
/// in, each of any length.
pub struct Out<'a> {
    /// The lines: C's `out`.
    pub lines: &'a mut [u8],
    /// A mark for each line: C's `marks`.
    pub marks: &'a mut [u8],
    /// The parity lines of the rows: C's `row_out`.
    pub row_table: &'a mut [u8],
    /// The parity lines of the columns: C's `column_out`.
    pub column_table: &'a mut [u8],
}

/// Repairs a rectangle; gives the answer and the passes.
#[must_use]
pub fn repair(
    rows: usize,
    columns: usize,
    lines: &[u8],
    row_table: &[u8],
    column_table: &[u8],
    out: Out,
) -> (u32, u64) {
    let mut passes = u64::MAX;
    // SAFETY: see above.
    let answer = unsafe {
        declared::sudoku_repair(
            rows,
            columns,
            lines.as_ptr(),
            lines.len(),
            row_table.as_ptr(),
            row_table.len(),
            column_table.as_ptr(),
            column_table.len(),
            out.lines.as_mut_ptr(),
            out.lines.len(),
            out.marks.as_mut_ptr(),
            out.marks.len(),
            out.row_table.as_mut_ptr(),
            out.row_table.len(),
            out.column_table.as_mut_ptr(),
            out.column_table.len(),
            &mut passes,
        )
    };
    (answer, passes)
}

/// Reads line `n` alone, then by its row, then by the whole repair, until it is
/// whole; gives the answer, the line's mark and the last step taken.
///
/// After the answers 0 and 11 the work buffers are all zero.
#[must_use]
#[allow(clippy::too_many_arguments)]
pub fn read_one(
    rows: usize,
    columns: usize,
    lines: &[u8],
    row_table: &[u8],
    column_table: &[u8],
    n: usize,
    work: Out,
    line: &mut [u8],
) -> (u32, u8, u32) {
    let (mut mark, mut step) = (0xEE, u32::MAX);
    // SAFETY: see above.
    let answer = unsafe {
        declared::sudoku_read_one(
            rows,
            columns,
            lines.as_ptr(),
            lines.len(),
            row_table.as_ptr(),
            row_table.len(),
            column_table.as_ptr(),
            column_table.len(),
            n,
            work.lines.as_mut_ptr(),
            work.lines.len(),
            work.marks.as_mut_ptr(),
            work.marks.len(),
            work.row_table.as_mut_ptr(),
            work.row_table.len(),
            work.column_table.as_mut_ptr(),
            work.column_table.len(),
            line.as_mut_ptr(),
            line.len(),
            &mut mark,
            &mut step,
        )
    };
    (answer, mark, step)
}

/// Works out what rebuilding alone would make of a list of faulty lines: `faulty`
/// has a byte for each line, 0 if it is whole. Gives the answer and the passes.
#[must_use]
pub fn forecast(rows: usize, columns: usize, faulty: &[u8], marks: &mut [u8]) -> (u32, u64) {
    let mut passes = u64::MAX;
    // SAFETY: see above.
    let answer = unsafe {
        declared::sudoku_forecast(
            rows,
            columns,
            faulty.as_ptr(),
            faulty.len(),
            marks.as_mut_ptr(),
            marks.len(),
            &mut passes,
        )
    };
    (answer, passes)
}

/// Takes the marks and the answer of one repair into a report of ten numbers;
/// gives the answer. A refusal leaves the numbers as they were.
#[must_use]
pub fn wear_add(wear: &mut [u64], marks: &[u8], answer: u32) -> u32 {
    // SAFETY: see above.
    unsafe {
        declared::sudoku_wear_add(
            wear.as_mut_ptr(),
            wear.len(),
            marks.as_ptr(),
            marks.len(),
            answer,
        )
    }
}

/// Compares the shares of rebuilt lines of two reports of ten numbers; gives the
/// answer and the order: 0 equal, 1 the first is smaller, 2 greater.
#[must_use]
pub fn wear_compare(a: &[u64], b: &[u64]) -> (u32, u32) {
    let mut order = u32::MAX;
    // SAFETY: see above.
    let answer = unsafe {
        declared::sudoku_wear_compare(a.as_ptr(), a.len(), b.as_ptr(), b.len(), &mut order)
    };
    (answer, order)
}
