//! What rebuilding alone would save, as request Q-6 has it: repair in which no
//! trial takes and every parity line is usable. Nothing then depends on a line's
//! bytes but whether it is faulty.

use crate::rectangle::{column_members, row_members, sides_fit};
use crate::{answer, mark};

/// What a forecast gives, beside the marks written.
#[derive(Clone, Copy, Debug, PartialEq, Eq)]
pub struct Forecast {
    /// The answer: 0 also where faulty lines are left.
    pub answer: u32,
    /// The passes that repair would make; 0 where the answer turns back.
    pub passes: u64,
}

/// Writes the marks that repair would give if no trial took: 0 whole, 3 rebuilt,
/// 4 faulty. In `faulty` is a byte for each line: 0 whole, anything else faulty.
///
/// Refusals: 2, 7 (pattern or marks).
pub fn forecast(rows: usize, columns: usize, faulty: &[u8], marks: &mut [u8]) -> Forecast {
    let refused = |answer| Forecast { answer, passes: 0 };
    if !sides_fit(rows, columns) {
        return refused(answer::SIDES);
    }
    let lines = rows * columns;
    if faulty.len() != lines || marks.len() != lines {
        return refused(answer::BUFFER);
    }

    let of_rows = (0..rows).map(|row| row_members(row, columns));
    let of_columns = (0..columns).map(|column| column_members(column, rows, columns));
    let groups: Vec<Vec<usize>> = of_rows.chain(of_columns).collect();
    let mut held: Vec<u8> = faulty.iter().copied().map(first_mark).collect();
    let mut passes = 0;
    while held.contains(&mark::FAULTY) {
        passes += 1;
        let rebuilt: usize = groups.iter().map(|group| visit(group, &mut held)).sum();
        if rebuilt == 0 {
            break;
        }
    }

    marks.copy_from_slice(&held);
    Forecast {
        answer: answer::DONE,
        passes,
    }
}

/// The mark of a line before the first pass. Whether a whole one was rewritten
/// isn't known, and doesn't matter.
fn first_mark(faulty: u8) -> u8 {
    if faulty == 0 {
        mark::CLEAN
    } else {
        mark::FAULTY
    }
}

/// Visits a group; gives how many lines it rebuilt: the faulty one where there is
/// exactly one. Of two or more a trial would have to take, and none does.
fn visit(group: &[usize], marks: &mut [u8]) -> usize {
    let is_faulty = |&n: &usize| marks[n] == mark::FAULTY;
    let faulty: Vec<usize> = group.iter().copied().filter(is_faulty).collect();
    match faulty[..] {
        [only] => {
            marks[only] = mark::REBUILT;
            1
        }
        _ => 0,
    }
}
