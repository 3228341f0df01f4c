//! Repair of a rectangle.

use crate::line::{self, Line, exclusive_or};
use crate::rectangle::{all_places, column_members, row_members, sides_fit, sum, write_all};
use crate::{LINE_BYTES, answer, mark};

/// The buffers that repair writes, and that a read of one line borrows.
pub struct Out<'a> {
    /// The lines.
    pub lines: &'a mut [u8],
    /// A mark for each line.
    pub marks: &'a mut [u8],
    /// The parity lines of the rows.
    pub row_table: &'a mut [u8],
    /// The parity lines of the columns.
    pub column_table: &'a mut [u8],
}

/// What repair gives, beside what it writes out.
#[derive(Clone, Copy, Debug, PartialEq, Eq)]
pub struct Repair {
    /// The answer.
    pub answer: u32,
    /// The passes made; 0 where the answer turns back.
    pub passes: u64,
}

/// The greatest number of mismatch places that are tried.
const MOST_TRIED: usize = 6;

/// Repairs a rectangle: reads lines and tables, writes lines, marks and both
/// tables into `out`.
///
/// Refusals: 2, 5, 6 (any table, read or written), 7 (lines or marks written).
/// With 11 and 12 everything is still written.
pub fn repair(
    rows: usize,
    columns: usize,
    lines: &[u8],
    row_table: &[u8],
    column_table: &[u8],
    out: Out,
) -> Repair {
    let tables = [row_table.len(), column_table.len()];
    if let Some(answer) = refusal(rows, columns, lines.len(), tables, &out) {
        return Repair { answer, passes: 0 };
    }

    let of_rows = Group::all(row_table, |row| row_members(row, columns));
    let of_columns = Group::all(column_table, |column| column_members(column, rows, columns));
    let mut held = Held::read_alone(lines);
    let mut passes = 0;
    while held.some_faulty() {
        passes += 1;
        let visited = of_rows.iter().chain(&of_columns);
        let mended: usize = visited.map(|group| held.visit(group)).sum();
        if mended == 0 {
            break;
        }
    }

    write_all(&held.lines, out.lines);
    out.marks.copy_from_slice(&held.marks);
    write_all(&held.handed_over(&of_rows), out.row_table);
    write_all(&held.handed_over(&of_columns), out.column_table);
    let answer = if held.some_faulty() {
        answer::LEFT
    } else if of_rows.iter().chain(&of_columns).any(|g| held.differs(g)) {
        answer::DIFFERS
    } else {
        answer::DONE
    };
    Repair { answer, passes }
}

/// The first refusal of a repair that fits, given the lengths of the lines and
/// the tables read.
pub(crate) fn refusal(
    rows: usize,
    columns: usize,
    lines: usize,
    tables: [usize; 2],
    out: &Out,
) -> Option<u32> {
    if !sides_fit(rows, columns) {
        return Some(answer::SIDES);
    }
    let count = rows * columns;
    let right = [rows * LINE_BYTES, columns * LINE_BYTES];
    let written = [out.row_table.len(), out.column_table.len()];
    // In the order of the list: each is so, or its number is the refusal.
    let tests = [
        (lines == count * LINE_BYTES, answer::LINES),
        (tables == right, answer::TABLE),
        (written == right, answer::TABLE),
        (out.lines.len() == count * LINE_BYTES, answer::BUFFER),
        (out.marks.len() == count, answer::BUFFER),
    ];
    let first = tests.iter().find(|(passed, _)| !passed);
    first.map(|&(_, refusal)| refusal)
}

/// A row or a column.
pub(crate) struct Group {
    /// The numbers of its lines, rising.
    members: Vec<usize>,
    /// Its parity line as it reads alone; as found where that is faulty.
    parity: Line,
    /// Whether its parity line was accepted: if not, its visits do nothing.
    usable: bool,
}

impl Group {
    /// The group of these lines, its parity line read alone.
    pub(crate) fn new(members: Vec<usize>, found: &[u8]) -> Group {
        let (parity, mark) = line::read_alone(&line::places(found));
        Group {
            members,
            parity,
            usable: mark != mark::FAULTY,
        }
    }

    /// The groups of a table.
    fn all(table: &[u8], members: impl Fn(usize) -> Vec<usize>) -> Vec<Group> {
        let found = table.chunks_exact(LINE_BYTES).enumerate();
        let group = |(n, found)| Group::new(members(n), found);
        found.map(group).collect()
    }
}

/// The lines that repair holds, and the mark of each.
pub(crate) struct Held {
    pub(crate) lines: Vec<Line>,
    pub(crate) marks: Vec<u8>,
}

impl Held {
    /// Every line read alone.
    pub(crate) fn read_alone(lines: &[u8]) -> Held {
        let (lines, marks) = all_places(lines).iter().map(line::read_alone).unzip();
        Held { lines, marks }
    }

    fn some_faulty(&self) -> bool {
        self.marks.contains(&mark::FAULTY)
    }

    /// The lines of a group that are faulty, in rising order.
    fn faulty(&self, group: &Group) -> Vec<usize> {
        let is_faulty = |&n: &usize| self.marks[n] == mark::FAULTY;
        group.members.iter().copied().filter(is_faulty).collect()
    }

    /// The exclusive or of a group's lines.
    fn sum(&self, group: &Group) -> Line {
        sum(&self.lines, &group.members)
    }

    /// Visits a group; gives how many lines it mended.
    pub(crate) fn visit(&mut self, group: &Group) -> usize {
        if !group.usable {
            return 0;
        }
        let faulty = self.faulty(group);
        match faulty.len() {
            0 => {}
            1 => self.rebuild(faulty[0], group),
            _ => self.trials(&faulty, group),
        }
        faulty.len() - self.faulty(group).len()
    }

    /// Line n becomes the exclusive or of the parity line and the others.
    fn rebuild(&mut self, n: usize, group: &Group) {
        let mut others = group.members.clone();
        others.retain(|&member| member != n);
        self.lines[n] = exclusive_or(&group.parity, &sum(&self.lines, &others));
        self.marks[n] = mark::REBUILT;
    }

    /// A visit to a group with two or more faulty lines.
    fn trials(&mut self, faulty: &[usize], group: &Group) {
        // The mismatch is worked out once, from the lines as they stand now.
        let differs = exclusive_or(&group.parity, &self.sum(group));
        let mismatch: Vec<usize> = (0..differs.len()).filter(|&p| differs[p]).collect();
        if mismatch.is_empty() || mismatch.len() > MOST_TRIED {
            return;
        }
        for &n in faulty {
            for &place in &mismatch {
                let mut trial = self.lines[n];
                trial[place] ^= true;
                let (read, mark) = line::read_alone(&trial);
                if mark != mark::FAULTY {
                    self.lines[n] = read;
                    self.marks[n] = mark::TRIAL;
                    break;
                }
            }
        }
        if let [last] = self.faulty(group)[..] {
            self.rebuild(last, group);
        }
    }

    /// The parity lines that are handed over for these groups: accepted ones as
    /// read, the others as found, or made afresh where no line is left faulty.
    fn handed_over(&self, groups: &[Group]) -> Vec<Line> {
        let some_faulty = self.some_faulty();
        let parity = |group: &Group| {
            if group.usable || some_faulty {
                group.parity
            } else {
                self.sum(group)
            }
        };
        groups.iter().map(parity).collect()
    }

    /// Whether a group's parity line was accepted and isn't that of its lines.
    fn differs(&self, group: &Group) -> bool {
        group.usable && group.parity != self.sum(group)
    }
}
