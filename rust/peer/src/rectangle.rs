//! Tables and repair of a rectangle.

use crate::code::{self, Flip, Trouble, Words, ZERO};
use crate::{LINE_BYTES, answer, mark};

pub(crate) fn sides_fit(rows: usize, columns: usize) -> bool {
    (2..=512).contains(&rows) && (2..=512).contains(&columns)
}

/// The lines that stand in these bytes.
fn lines_of(bytes: &[u8]) -> &[[u8; LINE_BYTES]] {
    bytes.as_chunks().0
}

fn lines_of_mut(bytes: &mut [u8]) -> &mut [[u8; LINE_BYTES]] {
    bytes.as_chunks_mut().0
}

/// Makes both parity tables of the lines as they read alone; gives the answer.
///
/// Refusals: 2, 5, 6 (either table), 10 (any line).
pub fn make_tables(
    rows: usize,
    columns: usize,
    lines: &[u8],
    row_table: &mut [u8],
    column_table: &mut [u8],
) -> u32 {
    if !sides_fit(rows, columns) {
        return answer::SIDES;
    }
    if lines.len() != rows * columns * LINE_BYTES {
        return answer::LINES;
    }
    if row_table.len() != rows * LINE_BYTES || column_table.len() != columns * LINE_BYTES {
        return answer::TABLE;
    }
    let mut of_rows = vec![ZERO; rows];
    let mut of_columns = vec![ZERO; columns];
    for (row, of_row) in lines_of(lines).chunks_exact(columns).zip(&mut of_rows) {
        for (line, of_column) in row.iter().zip(&mut of_columns) {
            let mut words = code::load(line);
            if code::read_alone(&mut words) == mark::FAULTY {
                return answer::FAULTY;
            }
            code::add(of_row, &words);
            code::add(of_column, &words);
        }
    }
    for (sums, table) in [(of_rows, row_table), (of_columns, column_table)] {
        for (sum, line) in sums.iter().zip(lines_of_mut(table)) {
            code::store(sum, line);
        }
    }
    answer::DONE
}

/// The buffers that repair writes.
pub struct Out<'a> {
    /// The lines.
    pub lines: &'a mut [u8],
    /// A mark for each line.
    pub marks: &'a mut [u8],
    /// The parity lines of the rows.
    pub row_table: &'a mut [u8],
    /// The parity lines of the columns.
    pub column_table: &'a mut [u8],
}

/// What repair gives, beside what it writes out.
#[derive(Clone, Copy, Debug, PartialEq, Eq)]
pub struct Repair {
    /// The answer.
    pub answer: u32,
    /// The passes made; 0 on refusals.
    pub passes: u64,
}

/// Repairs a rectangle: reads lines and tables, writes lines, marks and both
/// tables into `out`.
///
/// Refusals: 2, 5, 6 (any table, read or written), 7 (lines or marks written).
/// With 11 and 12 everything is still written.
pub fn repair(
    rows: usize,
    columns: usize,
    lines: &[u8],
    row_table: &[u8],
    column_table: &[u8],
    out: Out,
) -> Repair {
    let tables = [row_table.len(), column_table.len()];
    if let Some(answer) = refusal(rows, columns, lines.len(), tables, &out) {
        return Repair { answer, passes: 0 };
    }
    let of_rows = lines_of_mut(out.row_table);
    let of_columns = lines_of_mut(out.column_table);
    let mut rectangle = Rectangle {
        columns,
        out: lines_of_mut(out.lines),
        marks: out.marks,
        row_groups: read_parity(lines_of(row_table), of_rows),
        column_groups: read_parity(lines_of(column_table), of_columns),
        faulty: 0,
    };
    rectangle.first_reading(lines_of(lines));
    let passes = rectangle.passes();
    if rectangle.faulty == 0 {
        make_afresh(&rectangle.row_groups, of_rows);
        make_afresh(&rectangle.column_groups, of_columns);
    }
    Repair {
        answer: rectangle.answer(),
        passes,
    }
}

/// The first refusal that fits, given the lengths of the lines and the tables
/// read.
fn refusal(
    rows: usize,
    columns: usize,
    lines: usize,
    tables: [usize; 2],
    out: &Out,
) -> Option<u32> {
    if !sides_fit(rows, columns) {
        return Some(answer::SIDES);
    }
    let all_lines = rows * columns * LINE_BYTES;
    if lines != all_lines {
        return Some(answer::LINES);
    }
    let right = [rows * LINE_BYTES, columns * LINE_BYTES];
    if tables != right || [out.row_table.len(), out.column_table.len()] != right {
        return Some(answer::TABLE);
    }
    let fits = out.lines.len() == all_lines && out.marks.len() == rows * columns;
    (!fits).then_some(answer::BUFFER)
}

/// Reads every parity line alone and writes it out, as read or as found; gives
/// the groups before any of their lines is read.
fn read_parity(table: &[[u8; LINE_BYTES]], out: &mut [[u8; LINE_BYTES]]) -> Vec<Group> {
    let lines = table.iter().zip(out);
    let group = |(found, out): (&_, &mut _)| {
        let mut parity = code::load(found);
        let usable = code::read_alone(&mut parity) != mark::FAULTY;
        code::store(&parity, out);
        Group {
            // An unusable group's lines are summed alone: that is its parity
            // line made afresh.
            lacks: if usable { parity } else { ZERO },
            faulty: 0,
            usable,
            changed: true,
        }
    };
    lines.map(group).collect()
}

/// Writes the parity lines of unusable groups, none of whose lines is faulty.
fn make_afresh(groups: &[Group], out: &mut [[u8; LINE_BYTES]]) {
    for (group, out) in groups.iter().zip(out) {
        if !group.usable {
            code::store(&group.lacks, out);
        }
    }
}

/// A row or a column.
struct Group {
    /// The exclusive or of its parity line and its lines as they stand; of its
    /// lines alone where it is unusable.
    lacks: Words,
    /// How many of its lines are faulty.
    faulty: usize,
    /// Whether its parity line was accepted.
    usable: bool,
    /// Whether something changed since its last visit.
    changed: bool,
}

impl Group {
    /// Whether a visit may mend anything.
    fn worth_a_visit(&self) -> bool {
        self.usable && self.changed && self.faulty > 0
    }
}

/// The rectangle under repair.
struct Rectangle<'a> {
    columns: usize,
    out: &'a mut [[u8; LINE_BYTES]],
    marks: &'a mut [u8],
    row_groups: Vec<Group>,
    column_groups: Vec<Group>,
    faulty: usize,
}

impl Rectangle<'_> {
    /// Reads every line alone.
    fn first_reading(&mut self, lines: &[[u8; LINE_BYTES]]) {
        let rows = lines.chunks_exact(self.columns).zip(&mut self.row_groups);
        let out = self.out.chunks_exact_mut(self.columns);
        let marks = self.marks.chunks_exact_mut(self.columns);
        for (((found, row), out), marks) in rows.zip(out).zip(marks) {
            let mut lacks = row.lacks;
            let columns = self.column_groups.iter_mut();
            for (((found, out), mark), column) in found.iter().zip(out).zip(marks).zip(columns) {
                let mut words = code::load(found);
                *mark = code::read_alone(&mut words);
                code::add(&mut lacks, &words);
                code::add(&mut column.lacks, &words);
                code::store(&words, out);
                if *mark == mark::FAULTY {
                    row.faulty += 1;
                    column.faulty += 1;
                    self.faulty += 1;
                }
            }
            row.lacks = lacks;
        }
    }

    /// Makes passes until none is faulty or one mended nothing.
    fn passes(&mut self) -> u64 {
        let mut passes = 0;
        let mut before = usize::MAX;
        while self.faulty > 0 && self.faulty < before {
            before = self.faulty;
            passes += 1;
            for row in 0..self.row_groups.len() {
                let group = &mut self.row_groups[row];
                if group.worth_a_visit() {
                    group.changed = false;
                    let lacks = group.lacks;
                    let first = row * self.columns;
                    self.visit(&lacks, first, first + self.columns, 1);
                }
            }
            for column in 0..self.column_groups.len() {
                let group = &mut self.column_groups[column];
                if group.worth_a_visit() {
                    group.changed = false;
                    let lacks = group.lacks;
                    self.visit(&lacks, column, self.marks.len(), self.columns);
                }
            }
        }
        passes
    }

    /// Visits the group of every `step`th line from `first` to before `end`,
    /// which has faulty lines and lacks this.
    fn visit(&mut self, lacks: &Words, first: usize, end: usize, step: usize) {
        let mut faulty = (first..end)
            .step_by(step)
            .filter(|&n| self.marks[n] == mark::FAULTY);
        let (one, two) = (faulty.next(), faulty.next());
        let Some(one) = one else {
            return;
        };
        if two.is_none() {
            self.mend(one, lacks, mark::REBUILT);
            return;
        }
        let Some((places, count)) = code::few_places(lacks) else {
            return;
        };
        let mut rest = *lacks;
        let mut left = 0;
        let mut last = one;
        for n in (one..end).step_by(step) {
            if self.marks[n] != mark::FAULTY {
                continue;
            }
            match self.first_accepted(n, &places[..count]) {
                Some(change) => {
                    code::add(&mut rest, &change);
                    self.mend(n, &change, mark::TRIAL);
                }
                None => {
                    left += 1;
                    last = n;
                }
            }
        }
        if left == 1 {
            self.mend(last, &rest, mark::REBUILT);
        }
    }

    /// How line n changes by the first accepted trial.
    fn first_accepted(&self, n: usize, places: &[usize]) -> Option<Words> {
        let found = code::load(&self.out[n]);
        let trouble = Trouble::of(&found);
        for &place in places {
            let Some(named) = trouble.after(place).flip() else {
                continue;
            };
            let mut read = found;
            code::flip(&mut read, place);
            if let Flip::Place(named) = named {
                code::flip(&mut read, named);
            }
            // Its protected word is divisible now: Hamming bits afresh.
            code::read_alone(&mut read);
            code::add(&mut read, &found);
            return Some(read);
        }
        None
    }

    /// Changes line n, and what its groups lack, by this.
    fn mend(&mut self, n: usize, change: &Words, mark: u8) {
        let mut line = code::load(&self.out[n]);
        code::add(&mut line, change);
        code::store(&line, &mut self.out[n]);
        self.marks[n] = mark;
        self.faulty -= 1;
        let row = &mut self.row_groups[n / self.columns];
        let column = &mut self.column_groups[n % self.columns];
        for group in [row, column] {
            code::add(&mut group.lacks, change);
            group.faulty -= 1;
            group.changed = true;
        }
    }

    fn answer(&self) -> u32 {
        let mut groups = self.row_groups.iter().chain(&self.column_groups);
        if self.faulty > 0 {
            answer::LEFT
        } else if groups.any(|group| group.usable && group.lacks != ZERO) {
            answer::DIFFERS
        } else {
            answer::DONE
        }
    }
}
