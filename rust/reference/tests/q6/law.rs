//! Marks and passes of a forecast in other words than the rules', which go pass
//! by pass: which lines are left follows from the pattern alone, and how many
//! passes there are from the visit at which each line is rebuilt.

use super::{Call, Given};

/// What the forecast of a call with right sides and lengths gives.
pub fn due(call: &Call) -> Given {
    let left = left(call.columns, &call.faulty);
    let mark = |(n, &byte): (usize, &u8)| match byte {
        0 => 0,
        _ if left.contains(&n) => 4,
        _ => 3,
    };
    Given {
        answer: 0,
        passes: passes(call),
        marks: call.faulty.iter().enumerate().map(mark).collect(),
    }
}

/// The numbers of the faulty lines of a pattern.
fn faulty_lines(faulty: &[u8]) -> Vec<usize> {
    (0..faulty.len()).filter(|&n| faulty[n] != 0).collect()
}

/// The lines that are left faulty: all that remain if lines which are the only
/// ones of their row or column are taken away, here all of them at once, until
/// there are no such lines.
fn left(columns: usize, faulty: &[u8]) -> Vec<usize> {
    let mut left = faulty_lines(faulty);
    loop {
        let before = left.clone();
        left.retain(|&n| !alone(columns, &before, n));
        if left == before {
            return left;
        }
    }
}

/// Whether one of these lines is the only one of its row or column.
fn alone(columns: usize, lines: &[usize], n: usize) -> bool {
    let in_row = lines.iter().filter(|&m| m / columns == n / columns);
    let in_column = lines.iter().filter(|&m| m % columns == n % columns);
    in_row.count() == 1 || in_column.count() == 1
}

/// A line that no visit rebuilds.
const NEVER: usize = usize::MAX;

/// The passes: up to the one that rebuilds the last line, and one more where
/// lines are left.
fn passes(call: &Call) -> u64 {
    let visits = call.rows + call.columns;
    let at = rebuilt_at(call);
    let last = at.iter().copied().filter(|&visit| visit != NEVER).max();
    let idle = at.contains(&NEVER);
    (last.unwrap_or(0).div_ceil(visits) + usize::from(idle)) as u64
}

/// For each faulty line the number of the visit that rebuilds it. Visits are
/// counted through all passes, and the first has number 1.
///
/// That is the first visit of its row or of its column that comes after all other
/// faulty lines of the same are rebuilt. Starting with no visit for any line, this
/// is said again of each until nothing changes.
fn rebuilt_at(call: &Call) -> Vec<usize> {
    let lines = faulty_lines(&call.faulty);
    let mut at = vec![NEVER; lines.len()];
    loop {
        let before = at.clone();
        for i in 0..lines.len() {
            at[i] = by_row(call, &lines, &at, i).min(by_column(call, &lines, &at, i));
        }
        if at == before {
            return at;
        }
    }
}

/// The visit of its row that rebuilds the ith of these lines, given the visits
/// that rebuild the others.
fn by_row(call: &Call, lines: &[usize], at: &[usize], i: usize) -> usize {
    let row = |n: usize| n / call.columns;
    let same = |&j: &usize| j != i && row(lines[j]) == row(lines[i]);
    let others = (0..lines.len()).filter(same).map(|j| at[j]);
    next_visit(call, row(lines[i]), others.max().unwrap_or(0))
}

/// The visit of its column that does, likewise: columns come after the rows.
fn by_column(call: &Call, lines: &[usize], at: &[usize], i: usize) -> usize {
    let column = |n: usize| n % call.columns;
    let same = |&j: &usize| j != i && column(lines[j]) == column(lines[i]);
    let others = (0..lines.len()).filter(same).map(|j| at[j]);
    next_visit(
        call,
        call.rows + column(lines[i]),
        others.max().unwrap_or(0),
    )
}

/// The number of the first visit after this one at which a pass comes to this
/// group.
fn next_visit(call: &Call, group: usize, after: usize) -> usize {
    if after == NEVER {
        return NEVER;
    }
    let groups = call.rows + call.columns;
    (after + 1..=after + groups)
        .find(|visit| (visit - 1) % groups == group)
        .unwrap_or(NEVER)
}

/// For each set of lines, by its bits, the lines that are left of it: those of the
/// largest part of it in which no row and no column holds exactly one line. That
/// is all such parts together.
pub fn largest_parts((rows, columns): (usize, usize)) -> Vec<usize> {
    let row = |row: usize| (0..columns).map(move |column| row * columns + column);
    let column = |column: usize| (0..rows).map(move |row| row * columns + column);
    let bits = |lines: Vec<usize>| lines.iter().map(|n| 1 << n).sum::<usize>();
    let of_rows = (0..rows).map(|n| bits(row(n).collect()));
    let of_columns = (0..columns).map(|n| bits(column(n).collect()));
    let groups: Vec<usize> = of_rows.chain(of_columns).collect();

    let stays = |set: usize| groups.iter().all(|group| (set & group).count_ones() != 1);
    let parts: Vec<usize> = (0..1 << (rows * columns))
        .filter(|&set| stays(set))
        .collect();
    let largest = |set: usize| {
        let within = parts.iter().filter(|&&part| part & !set == 0);
        within.fold(0, |all, part| all | part)
    };
    (0..1 << (rows * columns)).map(largest).collect()
}
