//! The store file, and the report that the program `storecheck` prints.

use std::ops::Range;

use crate::rectangle::sides_fit;
use crate::repair::{Out, repair};
use crate::{GREATEST_SIDE, LINE_BYTES, PROGRAM_SIDE, answer};

/// Bytes of the header.
pub const HEADER_BYTES: usize = 28;

/// A store file's contents, where its header and length are right.
#[derive(Clone, Debug, PartialEq, Eq)]
pub struct StoreFile {
    /// The answer; with another than 0 all else is 0.
    pub answer: u32,
    /// The rows.
    pub rows: usize,
    /// The columns.
    pub columns: usize,
    /// Where the lines stand in the file.
    pub lines: Range<usize>,
    /// Where the row table stands in the file.
    pub row_table: Range<usize>,
    /// Where the column table stands in the file.
    pub column_table: Range<usize>,
}

impl StoreFile {
    fn refused(answer: u32) -> StoreFile {
        StoreFile {
            answer,
            rows: 0,
            columns: 0,
            lines: 0..0,
            row_table: 0..0,
            column_table: 0..0,
        }
    }
}

/// The header that a store of these sides has.
///
/// Sides far above 512 may give offsets or lengths cut to their four bytes.
pub fn header(rows: u16, columns: u16) -> [u8; HEADER_BYTES] {
    let bodies = bodies(usize::from(rows), usize::from(columns));
    let mut header = [0; HEADER_BYTES];
    header[0..2].copy_from_slice(&rows.to_le_bytes());
    header[2..4].copy_from_slice(&columns.to_le_bytes());
    for (entry, body) in header[4..].chunks_exact_mut(8).zip(bodies) {
        entry[0..4].copy_from_slice(&(body.start as u32).to_le_bytes());
        entry[4..8].copy_from_slice(&(body.len() as u32).to_le_bytes());
    }
    header
}

/// Where lines, row table and column table stand: after the header, in that
/// order, without gaps.
fn bodies(rows: usize, columns: usize) -> [Range<usize>; 3] {
    let lines_end = HEADER_BYTES + rows * columns * LINE_BYTES;
    let row_table_end = lines_end + rows * LINE_BYTES;
    let column_table_end = row_table_end + columns * LINE_BYTES;
    [
        HEADER_BYTES..lines_end,
        lines_end..row_table_end,
        row_table_end..column_table_end,
    ]
}

/// Checks a store file's header and length.
///
/// Refusals: 1, 2, 4.
pub fn check_file(file: &[u8]) -> StoreFile {
    check(file, GREATEST_SIDE)
}

/// Checks a store file's header and length as the program does.
///
/// Refusals: 1, 2, 3, 4.
pub fn check_program_file(file: &[u8]) -> StoreFile {
    check(file, PROGRAM_SIDE)
}

fn check(file: &[u8], greatest: usize) -> StoreFile {
    if file.len() < HEADER_BYTES {
        return StoreFile::refused(answer::SHORT_FILE);
    }
    let short_rows = u16::from_le_bytes([file[0], file[1]]);
    let short_columns = u16::from_le_bytes([file[2], file[3]]);
    let (rows, columns) = (usize::from(short_rows), usize::from(short_columns));
    if !sides_fit(rows, columns) {
        return StoreFile::refused(answer::SIDES);
    }
    if rows > greatest || columns > greatest {
        return StoreFile::refused(answer::PROGRAM_SIDES);
    }
    let [lines, row_table, column_table] = bodies(rows, columns);
    let required = header(short_rows, short_columns);
    if file[..HEADER_BYTES] != required || file.len() != column_table.end {
        return StoreFile::refused(answer::CONTENTS);
    }
    StoreFile {
        answer: answer::DONE,
        rows,
        columns,
        lines,
        row_table,
        column_table,
    }
}

/// What `storecheck` prints for this file.
///
/// An answer that turns back gives only the last line.
pub fn storecheck(file: &[u8]) -> String {
    let only_answer = |answer: u32| format!("answer {answer}\n");

    let store = check_program_file(file);
    if store.answer != answer::DONE {
        return only_answer(store.answer);
    }
    let (rows, columns) = (store.rows, store.columns);
    let mut marks = vec![0; rows * columns];
    let repaired = repair(
        rows,
        columns,
        &file[store.lines.clone()],
        &file[store.row_table.clone()],
        &file[store.column_table.clone()],
        Out {
            lines: &mut vec![0; store.lines.len()],
            marks: &mut marks,
            row_table: &mut vec![0; store.row_table.len()],
            column_table: &mut vec![0; store.column_table.len()],
        },
    );
    if answer::turns_back(repaired.answer) {
        return only_answer(repaired.answer);
    }

    let mut report = format!("store {rows} {columns}\n");
    let names = ["clean", "alone", "trial", "rebuilt", "faulty"];
    for (mark, name) in (0u8..).zip(names) {
        let count = marks.iter().filter(|&&m| m == mark).count();
        report += &format!("{name} {count}\n");
    }
    report += &format!("passes {}\n", repaired.passes);
    report += &only_answer(repaired.answer);
    report
}
