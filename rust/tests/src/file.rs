//! Calls about store files, made over guarded buffers.

use reference::random::Random;
use sudoku::c::{Check, Layout, Out};

use crate::{Guarded, Interface, Library, Reference};

/// The buffers that a check writes.
#[derive(Clone, Debug, PartialEq, Eq)]
pub struct Buffers {
    /// The lines.
    pub lines: Vec<u8>,
    /// The marks.
    pub marks: Vec<u8>,
    /// The row table.
    pub row_table: Vec<u8>,
    /// The column table.
    pub column_table: Vec<u8>,
}

impl Buffers {
    /// Those of a store of these sides, with drawn bytes.
    pub fn drawn(random: &mut Random, rows: usize, columns: usize) -> Buffers {
        let mut drawn = |length| {
            let mut bytes = vec![0; length];
            random.fill(&mut bytes);
            bytes
        };
        Buffers {
            lines: drawn(rows * columns * reference::LINE_BYTES),
            marks: drawn(rows * columns),
            row_table: drawn(rows * reference::LINE_BYTES),
            column_table: drawn(columns * reference::LINE_BYTES),
        }
    }
}

/// What a check gives: its answer and counts, and the buffers as they are after.
#[derive(Debug, PartialEq, Eq)]
pub struct Checked {
    /// The answer.
    pub answer: u32,
    /// The counts.
    pub check: Check,
    /// The buffers.
    pub after: Buffers,
}

/// Opens a file.
///
/// # Panics
///
/// Panics where the answer isn't 0, 1, 2 or 4, where the file or a guard was
/// written, or where a refusal gives numbers.
pub fn open(on: &dyn Interface, file: &[u8], shift: usize) -> (u32, Layout) {
    let mut read = Guarded::new(file, shift);
    let (answer, layout) = on.open_file(read.content_mut());
    let name = on.name();
    let allowed = matches!(answer, 0 | 1 | 2 | 4);
    assert!(allowed, "{name} may not answer {answer}");
    let intact = read.intact() && read.content() == file;
    assert!(intact, "{name}: opening has written");
    let numbers = layout != Layout::default();
    assert_eq!(numbers, answer == 0, "{name}: {answer} with {layout:?}");
    (answer, layout)
}

/// Writes a header over these bytes; gives the answer, and them as they are after.
///
/// # Panics
///
/// Panics where the answer isn't 0, 2 or 7, or where a guard was written, or
/// anything by a refusal.
pub fn header(
    on: &dyn Interface,
    (rows, columns): (usize, usize),
    before: &[u8],
    shift: usize,
) -> (u32, Vec<u8>) {
    let mut to = Guarded::new(before, shift);
    let answer = on.write_header(rows, columns, to.content_mut());
    let name = on.name();
    assert!(
        matches!(answer, 0 | 2 | 7),
        "{name} may not answer {answer}"
    );
    assert!(to.intact(), "{name}: more than the header was written");
    let unchanged = answer == 0 || to.content() == before;
    assert!(unchanged, "{name}: {answer} has written");
    (answer, to.content().to_vec())
}

/// How many bytes are needed of a file that begins so.
///
/// # Panics
///
/// Panics where these bytes or a guard were written.
pub fn needed(on: &dyn Interface, start: &[u8], shift: usize) -> usize {
    let mut read = Guarded::new(start, shift);
    let needed = on.bytes_needed(read.content_mut());
    let intact = read.intact() && read.content() == start;
    assert!(intact, "{}: the start was written", on.name());
    needed
}

/// Checks a file.
///
/// # Panics
///
/// Panics where the answer isn't one that a check gives, where the file or a
/// guard was written, where a refusal wrote something or gives numbers, or where
/// the counts are none of so many lines and this answer.
pub fn check(on: &dyn Interface, file: &[u8], before: &Buffers, shift: usize) -> Checked {
    let mut read = Guarded::new(file, shift);
    let mut lines = Guarded::new(&before.lines, 5 * shift);
    let mut marks = Guarded::new(&before.marks, 3 * shift);
    let mut row_table = Guarded::new(&before.row_table, 7 * shift);
    let mut column_table = Guarded::new(&before.column_table, 9 * shift);
    let out = Out {
        lines: lines.content_mut(),
        marks: marks.content_mut(),
        row_table: row_table.content_mut(),
        column_table: column_table.content_mut(),
    };
    let (answer, check) = on.check_file(read.content_mut(), out);
    let written = [&lines, &marks, &row_table, &column_table];
    let name = on.name();
    let intact = read.intact() && read.content() == file;
    assert!(
        intact && written.into_iter().all(Guarded::intact),
        "{name}: more than the four buffers was written"
    );
    let [lines, marks, row_table, column_table] = written.map(|buffer| buffer.content().to_vec());
    let checked = Checked {
        answer,
        check,
        after: Buffers {
            lines,
            marks,
            row_table,
            column_table,
        },
    };
    expect_allowed(name, before, &checked);
    checked
}

/// What a check gave is what one may give.
fn expect_allowed(name: &str, before: &Buffers, checked: &Checked) {
    let Checked {
        answer,
        check,
        after,
    } = checked;
    match answer {
        0 | 11 | 12 => {
            let lines = check.rows * check.columns;
            assert_eq!(check.lines.iter().sum::<u64>(), lines, "{name}: {check:?}");
            let left = check.lines[4] > 0;
            assert_eq!(left, *answer == 11, "{name}: {answer} with {check:?}");
        }
        1 | 2 | 4 | 6 | 7 => {
            let nothing = after == before && *check == Check::default();
            assert!(nothing, "{name}: {answer} has written or has {check:?}");
        }
        other => panic!("{name} may not answer {other}"),
    }
}

/// [`open`] on both implementations, which must agree.
///
/// # Panics
///
/// Panics where they don't, and where [`open`] does.
pub fn both_open(file: &[u8], shift: usize) -> (u32, Layout) {
    let library = open(&Library, file, shift);
    assert_eq!(library, open(&Reference, file, shift), "opening");
    library
}

/// [`header`] on both implementations, which must agree.
///
/// # Panics
///
/// Panics where they don't, and where [`header`] does.
pub fn both_header(sides: (usize, usize), before: &[u8], shift: usize) -> (u32, Vec<u8>) {
    let library = header(&Library, sides, before, shift);
    assert_eq!(
        library,
        header(&Reference, sides, before, shift),
        "{sides:?}"
    );
    library
}

/// [`needed`] on both implementations, which must agree.
///
/// # Panics
///
/// Panics where they don't, and where [`needed`] does.
pub fn both_needed(start: &[u8], shift: usize) -> usize {
    let library = needed(&Library, start, shift);
    assert_eq!(library, needed(&Reference, start, shift), "bytes needed");
    library
}

/// [`check`] on both implementations, which must agree.
///
/// # Panics
///
/// Panics where they don't, and where [`check`] does.
pub fn both_check(file: &[u8], before: &Buffers, shift: usize) -> Checked {
    let library = check(&Library, file, before, shift);
    let reference = check(&Reference, file, before, shift);
    let numbers = |of: &Checked| (of.answer, of.check);
    assert_eq!(numbers(&library), numbers(&reference), "a check");
    assert!(library.after == reference.after, "a buffer differs");
    library
}
