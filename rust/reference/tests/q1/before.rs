//! Repair as it was before request Q-1, stated anew: mark 0 was an accepted
//! line whose protected word was untouched, mark 1 one accepted after a flip.
//! Parity lines are taken as request Q-3 has them.

use reference::code::LineCode;
use reference::draw::{Outcome, Store};
use reference::hamming::Named;
use reference::line::{self, Line, ZERO, exclusive_or};
use reference::{DATA_BYTES, LINE_BYTES};

const FAULTY: u8 = 4;

/// What repair gave for this store.
pub fn repaired(store: &Store) -> Outcome {
    let groups = groups(store);
    let mut held = Held::read(store);
    let mut passes = 0;
    // Passes go on while lines are faulty, but fewer than before the last one.
    let mut before = usize::MAX;
    while (1..before).contains(&held.faulty()) {
        before = held.faulty();
        passes += 1;
        let usable = groups.iter().filter(|group| group.usable);
        usable.for_each(|group| held.visit(group));
    }
    let agrees = |group: &Group| !group.usable || held.sum(&group.members) == group.parity;
    let answer = match held.faulty() {
        0 if groups.iter().all(agrees) => 0,
        0 => 12,
        _ => 11,
    };
    let handed_over = |group: &Group| match answer {
        0 | 12 if !group.usable => line::bytes(&held.sum(&group.members)),
        _ => line::bytes(&group.parity),
    };
    let (of_rows, of_columns) = groups.split_at(store.rows);
    Outcome {
        answer,
        passes,
        lines: held.lines.iter().flat_map(line::bytes).collect(),
        row_table: of_rows.iter().flat_map(handed_over).collect(),
        column_table: of_columns.iter().flat_map(handed_over).collect(),
        marks: held.marks,
    }
}

/// The lines that are faulty after every line was read alone and one row was
/// visited.
pub fn faulty_after_row(store: &Store, row: usize) -> Vec<usize> {
    let group = &groups(store)[row];
    let mut held = Held::read(store);
    if group.usable {
        held.visit(group);
    }
    (0..store.count())
        .filter(|&n| held.marks[n] == FAULTY)
        .collect()
}

/// Reading alone.
fn read_alone(found: &Line) -> (Line, u8) {
    let code = LineCode::store();
    if code.divisible(found) {
        return (afresh(found), 0);
    }
    let mut flipped = *found;
    if let Named::Protected(place) = code.hamming().named(code.syndrome(found)) {
        flipped[place] ^= true;
    }
    if code.divisible(&flipped) {
        (afresh(&flipped), 1)
    } else {
        (*found, FAULTY)
    }
}

/// A line with a divisible protected word, its Hamming bits afresh: the line
/// that is written for its data.
fn afresh(line: &Line) -> Line {
    let mut data = [0; DATA_BYTES];
    data.copy_from_slice(&line::bytes(line)[..DATA_BYTES]);
    line::written(&data)
}

/// A row or a column: the numbers of its lines, rising, its parity line as it
/// reads alone, and whether that was accepted.
struct Group {
    members: Vec<usize>,
    parity: Line,
    usable: bool,
}

/// All rows, then all columns.
fn groups(store: &Store) -> Vec<Group> {
    let numbers = || 0..store.count();
    let row = |r| numbers().filter(|n| n / store.columns == r).collect();
    let column = |c| numbers().filter(|n| n % store.columns == c).collect();
    let members = (0..store.rows)
        .map(row)
        .chain((0..store.columns).map(column));
    let parity = all_places(&store.row_table)
        .into_iter()
        .chain(all_places(&store.column_table));
    let group = |(members, found): (Vec<usize>, Line)| {
        let (parity, mark) = read_alone(&found);
        Group {
            members,
            parity,
            usable: mark != FAULTY,
        }
    };
    members.zip(parity).map(group).collect()
}

fn all_places(bytes: &[u8]) -> Vec<Line> {
    bytes.chunks_exact(LINE_BYTES).map(line::places).collect()
}

/// The lines held, and the mark of each.
struct Held {
    lines: Vec<Line>,
    marks: Vec<u8>,
}

impl Held {
    /// Every line read alone.
    fn read(store: &Store) -> Held {
        let (lines, marks) = all_places(&store.lines).iter().map(read_alone).unzip();
        Held { lines, marks }
    }

    fn faulty(&self) -> usize {
        self.marks.iter().filter(|&&mark| mark == FAULTY).count()
    }

    fn sum(&self, members: &[usize]) -> Line {
        let lines = members.iter().map(|&n| &self.lines[n]);
        lines.fold(ZERO, |sum, line| exclusive_or(&sum, line))
    }

    fn faulty_of(&self, group: &Group) -> Vec<usize> {
        let mut members = group.members.clone();
        members.retain(|&n| self.marks[n] == FAULTY);
        members
    }

    fn visit(&mut self, group: &Group) {
        let faulty = self.faulty_of(group);
        if faulty.len() > 1 {
            self.trials(&faulty, group);
        }
        if let [last] = self.faulty_of(group)[..] {
            // The line itself must not count: added once more, it goes.
            let others = exclusive_or(&self.sum(&group.members), &self.lines[last]);
            self.lines[last] = exclusive_or(&group.parity, &others);
            self.marks[last] = 3;
        }
    }

    fn trials(&mut self, faulty: &[usize], group: &Group) {
        let differs = exclusive_or(&group.parity, &self.sum(&group.members));
        let mut mismatch: Vec<usize> = (0..differs.len()).collect();
        mismatch.retain(|&place| differs[place]);
        if mismatch.len() > 6 {
            return;
        }
        for &n in faulty {
            let tried = mismatch.iter().map(|&place| {
                let mut trial = self.lines[n];
                trial[place] ^= true;
                read_alone(&trial)
            });
            let mut accepted = tried.filter(|&(_, mark)| mark != FAULTY);
            if let Some((line, _)) = accepted.next() {
                self.lines[n] = line;
                self.marks[n] = 2;
            }
        }
    }
}
