//! Store files worked out by the second implementation, in the form of C's
//! functions.

use reference::file::{HEADER_BYTES, StoreFile, header};
use reference::rectangle::sides_fit;
use reference::{LINE_BYTES, Out, answer};
use sudoku::c::{Check, Layout};

/// Opens a file.
pub fn open_file(file: &[u8]) -> (u32, Layout) {
    let StoreFile {
        answer,
        rows,
        columns,
        lines,
        row_table,
        column_table,
    } = reference::check_file(file);
    let layout = Layout {
        rows: rows as u64,
        columns: columns as u64,
        lines_offset: lines.start as u64,
        lines_bytes: lines.len() as u64,
        row_offset: row_table.start as u64,
        row_bytes: row_table.len() as u64,
        column_offset: column_table.start as u64,
        column_bytes: column_table.len() as u64,
    };
    (answer, layout)
}

/// Writes a header.
pub fn write_header(rows: usize, columns: usize, to: &mut [u8]) -> u32 {
    if !sides_fit(rows, columns) {
        return answer::SIDES;
    }
    if to.len() != HEADER_BYTES {
        return answer::BUFFER;
    }
    to.copy_from_slice(&header(rows as u16, columns as u16));
    answer::DONE
}

/// How many bytes of a file that begins so have to be read.
pub fn bytes_needed(start: &[u8]) -> usize {
    let Some(begins) = start.first_chunk::<HEADER_BYTES>() else {
        return HEADER_BYTES;
    };
    let rows = u16::from_le_bytes([begins[0], begins[1]]);
    let columns = u16::from_le_bytes([begins[2], begins[3]]);
    let refused = !sides_fit(rows.into(), columns.into()) || *begins != header(rows, columns);
    if refused || reference::check_file(start).answer == answer::DONE {
        return HEADER_BYTES;
    }
    file_bytes(rows.into(), columns.into()) + 1
}

/// How many bytes the file of a store of these sides has.
pub fn file_bytes(rows: usize, columns: usize) -> usize {
    HEADER_BYTES + LINE_BYTES * (rows * columns + rows + columns)
}

/// Checks a file: opens it, repairs its store and counts the marks.
pub fn check_file(file: &[u8], out: Out) -> (u32, Check) {
    let store = reference::check_file(file);
    if store.answer != answer::DONE {
        return (store.answer, Check::default());
    }
    let marks = out.marks;
    let out = Out {
        marks: &mut *marks,
        ..out
    };
    let given = reference::repair(
        store.rows,
        store.columns,
        &file[store.lines],
        &file[store.row_table],
        &file[store.column_table],
        out,
    );
    if answer::turns_back(given.answer) {
        return (given.answer, Check::default());
    }
    let count = |mark| marks.iter().filter(|&&of| of == mark).count() as u64;
    let check = Check {
        rows: store.rows as u64,
        columns: store.columns as u64,
        lines: [0, 1, 2, 3, 4].map(count),
        passes: given.passes,
    };
    (given.answer, check)
}
