//! The rectangle: its groups, making both parity tables, changing a line.

use crate::line::{self, Line, ZERO, exclusive_or};
use crate::{DATA_BYTES, GREATEST_SIDE, LEAST_SIDE, LINE_BYTES, answer, mark};

/// Whether rows and columns are each 2 to 512.
pub fn sides_fit(rows: usize, columns: usize) -> bool {
    let fits = |side| (LEAST_SIDE..=GREATEST_SIDE).contains(&side);
    fits(rows) && fits(columns)
}

/// The numbers of the lines of a row, rising.
pub(crate) fn row_members(row: usize, columns: usize) -> Vec<usize> {
    (0..columns).map(|column| row * columns + column).collect()
}

/// The numbers of the lines of a column, rising.
pub(crate) fn column_members(column: usize, rows: usize, columns: usize) -> Vec<usize> {
    (0..rows).map(|row| row * columns + column).collect()
}

/// The lines that stand one after another in these bytes, as places.
pub(crate) fn all_places(bytes: &[u8]) -> Vec<Line> {
    bytes.chunks_exact(LINE_BYTES).map(line::places).collect()
}

/// The exclusive or of some of the lines.
pub(crate) fn sum(lines: &[Line], members: &[usize]) -> Line {
    members
        .iter()
        .fold(ZERO, |sum, &n| exclusive_or(&sum, &lines[n]))
}

/// The row table and the column table of these lines.
fn tables(rows: usize, columns: usize, lines: &[Line]) -> (Vec<Line>, Vec<Line>) {
    let of_rows = (0..rows).map(|row| sum(lines, &row_members(row, columns)));
    let of_columns = (0..columns).map(|column| sum(lines, &column_members(column, rows, columns)));
    (of_rows.collect(), of_columns.collect())
}

/// Writes these lines one after another into `bytes`.
pub(crate) fn write_all(lines: &[Line], bytes: &mut [u8]) {
    for (line, bytes) in lines.iter().zip(bytes.chunks_exact_mut(LINE_BYTES)) {
        bytes.copy_from_slice(&line::bytes(line));
    }
}

/// Makes both parity tables of the lines as they read alone; gives the answer.
///
/// Refusals: 2, 5, 6 (either table), 10 (any line).
pub fn make_tables(
    rows: usize,
    columns: usize,
    lines: &[u8],
    row_table: &mut [u8],
    column_table: &mut [u8],
) -> u32 {
    if !sides_fit(rows, columns) {
        return answer::SIDES;
    }
    if lines.len() != rows * columns * LINE_BYTES {
        return answer::LINES;
    }
    if row_table.len() != rows * LINE_BYTES || column_table.len() != columns * LINE_BYTES {
        return answer::TABLE;
    }
    let mut read = Vec::new();
    for found in all_places(lines) {
        let (line, mark) = line::read_alone(&found);
        if mark == mark::FAULTY {
            return answer::FAULTY;
        }
        read.push(line);
    }
    let (of_rows, of_columns) = tables(rows, columns, &read);
    write_all(&of_rows, row_table);
    write_all(&of_columns, column_table);
    answer::DONE
}

/// What changing a line gives, beside the lines written.
#[derive(Clone, Copy, Debug, PartialEq, Eq)]
pub struct Change {
    /// The answer.
    pub answer: u32,
    /// The line's row with 13, its column with 14, otherwise 0.
    pub number: u64,
}

/// Changes line `n` to the line of these data, and its two parity lines with
/// it.
///
/// Refusals: 2, 5, 6 (either table), 7 (data), 8, 13 (the parity line of its
/// row), 14 (that of its column), 10 (the line as it stands).
#[allow(clippy::too_many_arguments)]
pub fn change_line(
    rows: usize,
    columns: usize,
    lines: &mut [u8],
    row_table: &mut [u8],
    column_table: &mut [u8],
    n: usize,
    data: &[u8],
) -> Change {
    let gives = |answer| Change { answer, number: 0 };
    if !sides_fit(rows, columns) {
        return gives(answer::SIDES);
    }
    if lines.len() != rows * columns * LINE_BYTES {
        return gives(answer::LINES);
    }
    if row_table.len() != rows * LINE_BYTES || column_table.len() != columns * LINE_BYTES {
        return gives(answer::TABLE);
    }
    let Ok(data) = <&[u8; DATA_BYTES]>::try_from(data) else {
        return gives(answer::BUFFER);
    };
    if n >= rows * columns {
        return gives(answer::NUMBER);
    }

    let (row, column) = (n / columns, n % columns);
    let line_bytes = &mut lines[n * LINE_BYTES..][..LINE_BYTES];
    let row_bytes = &mut row_table[row * LINE_BYTES..][..LINE_BYTES];
    let column_bytes = &mut column_table[column * LINE_BYTES..][..LINE_BYTES];

    let row_parity = line::places(row_bytes);
    if !line::correct(&row_parity) {
        return Change {
            answer: answer::ROW_PARITY,
            number: row as u64,
        };
    }
    let column_parity = line::places(column_bytes);
    if !line::correct(&column_parity) {
        return Change {
            answer: answer::COLUMN_PARITY,
            number: column as u64,
        };
    }
    let (old, mark) = line::read_alone(&line::places(line_bytes));
    if mark == mark::FAULTY {
        return gives(answer::FAULTY);
    }

    let new = line::written(data);
    let change = exclusive_or(&old, &new);
    line_bytes.copy_from_slice(&line::bytes(&new));
    row_bytes.copy_from_slice(&line::bytes(&exclusive_or(&row_parity, &change)));
    column_bytes.copy_from_slice(&line::bytes(&exclusive_or(&column_parity, &change)));
    gives(answer::DONE)
}
