//! What rebuilding alone would save, told which lines are faulty.

use crate::rectangle::sides_fit;
use crate::{answer, mark};

/// Lines that are looked at together: where none of them is faulty, no other look
/// is needed.
const PIECE: usize = 64;

/// The faulty lines of a row or a column.
#[derive(Clone, Copy, Default)]
struct Group {
    /// How many there are.
    faulty: u32,
    /// The exclusive or of their numbers: of one line its number.
    numbers: u32,
}

impl Group {
    fn add(&mut self, n: usize) {
        self.faulty += 1;
        self.numbers ^= n as u32;
    }

    fn remove(&mut self, n: usize) {
        self.faulty -= 1;
        self.numbers ^= n as u32;
    }
}

/// Writes the marks that repair would give if no trial took and every parity line
/// were usable; gives the answer and the passes. In `faulty` is a byte for each
/// line, 0 if it is whole.
///
/// Refusals: 2, 7 (pattern or marks).
pub fn forecast(rows: usize, columns: usize, faulty: &[u8], marks: &mut [u8]) -> (u32, u64) {
    if !sides_fit(rows, columns) {
        return (answer::SIDES, 0);
    }
    let lines = rows * columns;
    if faulty.len() != lines || marks.len() != lines {
        return (answer::BUFFER, 0);
    }
    for (mark, &byte) in marks.iter_mut().zip(faulty) {
        *mark = if byte == 0 { mark::CLEAN } else { mark::FAULTY };
    }
    let mut of_rows = vec![Group::default(); rows];
    let mut of_columns = vec![Group::default(); columns];
    count(marks, &mut of_rows, &mut of_columns);
    let mut left: u32 = of_rows.iter().map(|row| row.faulty).sum();
    let mut before = u32::MAX;
    let mut passes = 0;
    while (1..before).contains(&left) {
        before = left;
        passes += 1;
        left -= visit_all(&mut of_rows, &mut of_columns, |n| n % columns, marks);
        left -= visit_all(&mut of_columns, &mut of_rows, |n| n / columns, marks);
    }
    (answer::DONE, passes)
}

/// Adds every faulty line to its row and its column.
fn count(marks: &[u8], of_rows: &mut [Group], of_columns: &mut [Group]) {
    let columns = of_columns.len();
    let rows = marks.chunks_exact(columns).zip(of_rows).enumerate();
    for (row, (marks, of_row)) in rows {
        for (piece, marks) in marks.chunks(PIECE).enumerate() {
            if !some_faulty(marks) {
                continue;
            }
            let first = piece * PIECE;
            for (column, &mark) in (first..).zip(marks) {
                if mark == mark::FAULTY {
                    let n = row * columns + column;
                    of_row.add(n);
                    of_columns[column].add(n);
                }
            }
        }
    }
}

/// Whether some of these marks are those of faulty lines; all others are 0. Of a
/// whole piece the length is known, and LLVM takes 16 marks at once.
fn some_faulty(marks: &[u8]) -> bool {
    let any = |marks: &[u8]| marks.iter().fold(0, |any, mark| any | mark) != 0;
    match <&[u8; PIECE]>::try_from(marks) {
        Ok(piece) => any(piece),
        Err(_) => any(marks),
    }
}

/// Visits all rows or all columns: of those with one faulty line it is rebuilt.
/// Gives how many were. `crossing` names the other group of a line.
fn visit_all(
    groups: &mut [Group],
    others: &mut [Group],
    crossing: impl Fn(usize) -> usize,
    marks: &mut [u8],
) -> u32 {
    let mut rebuilt = 0;
    for group in groups.iter_mut().filter(|group| group.faulty == 1) {
        let n = group.numbers as usize;
        group.remove(n);
        others[crossing(n)].remove(n);
        marks[n] = mark::REBUILT;
        rebuilt += 1;
    }
    rebuilt
}
