//! One line wanted, as request Q-4 has it.

use crate::line::{self, Line};
use crate::repair::{Group, Held, Out, refusal, repair};
use crate::{LINE_BYTES, answer, mark, step};

/// What a read of one line gives, beside the line written out.
#[derive(Clone, Copy, Debug, PartialEq, Eq)]
pub struct One {
    /// The answer: 11 exactly if the line stays faulty.
    pub answer: u32,
    /// The line's mark; 0 where the answer turns back.
    pub mark: u8,
    /// The last step taken; 0 where the answer turns back.
    pub step: u32,
}

/// Reads line `n` into `line`: alone, then by its row's visit, then by the whole
/// repair, until it is whole. The work buffers are all zero after 0 and 11.
///
/// Refusals: 2, 5, 6 (any table, lent to work in too), 7 (lines and marks to
/// work in, the line written), 8. With 11 the line is still written, as found.
#[allow(clippy::too_many_arguments)]
pub fn read_one(
    rows: usize,
    columns: usize,
    lines: &[u8],
    row_table: &[u8],
    column_table: &[u8],
    n: usize,
    mut work: Out,
    line: &mut [u8],
) -> One {
    let tables = [row_table.len(), column_table.len()];
    let refused = refusal(rows, columns, lines.len(), tables, &work)
        .or_else(|| (line.len() != LINE_BYTES).then_some(answer::BUFFER))
        .or_else(|| (n >= rows * columns).then_some(answer::NUMBER));
    if let Some(answer) = refused {
        return One {
            answer,
            mark: 0,
            step: 0,
        };
    }

    let mut step = step::ALONE;
    let (mut read, mut mark) = line::read_alone(&line::places(nth(lines, n)));
    if mark == mark::FAULTY {
        step = step::ROW;
        (read, mark) = after_row(columns, lines, row_table, n);
    }
    if mark == mark::FAULTY {
        step = step::REPAIR;
        repair(
            rows,
            columns,
            lines,
            row_table,
            column_table,
            lent(&mut work),
        );
        (read, mark) = (line::places(nth(work.lines, n)), work.marks[n]);
    }

    line.copy_from_slice(&line::bytes(&read));
    for buffer in [work.lines, work.marks, work.row_table, work.column_table] {
        buffer.fill(0);
    }
    let answer = if mark == mark::FAULTY {
        answer::LEFT
    } else {
        answer::DONE
    };
    One { answer, mark, step }
}

/// Line n and its mark after its row's visit. Only the row's own lines and its
/// parity line are looked at, and the lines are numbered by their columns here:
/// a line's number doesn't enter its reading today. Whoever makes it matter has
/// to hand over the true numbers.
fn after_row(columns: usize, lines: &[u8], row_table: &[u8], n: usize) -> (Line, u8) {
    let (row, column) = (n / columns, n % columns);
    let width = columns * LINE_BYTES;
    let group = Group::new((0..columns).collect(), nth(row_table, row));
    let mut held = Held::read_alone(&lines[row * width..][..width]);
    held.visit(&group);
    (held.lines[column], held.marks[column])
}

/// The bytes of the nth line.
fn nth(lines: &[u8], n: usize) -> &[u8] {
    &lines[n * LINE_BYTES..][..LINE_BYTES]
}

/// The work buffers, for repair to write.
fn lent<'a>(work: &'a mut Out) -> Out<'a> {
    Out {
        lines: work.lines,
        marks: work.marks,
        row_table: work.row_table,
        column_table: work.column_table,
    }
}
