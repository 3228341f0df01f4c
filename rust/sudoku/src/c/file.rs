//! Store files: opened, begun, read as far as needed, and checked.

use super::{Out, declared};

/// Where the parts of a store file stand, each by its offset from the file's
/// start and its length in bytes. All 0 where the file is refused.
#[repr(C)]
#[derive(Clone, Copy, Debug, Default, PartialEq, Eq)]
pub struct Layout {
    /// The rows.
    pub rows: u64,
    /// The columns.
    pub columns: u64,
    /// Where the lines begin.
    pub lines_offset: u64,
    /// How many bytes they are.
    pub lines_bytes: u64,
    /// Where the row table begins.
    pub row_offset: u64,
    /// How many bytes it is.
    pub row_bytes: u64,
    /// Where the column table begins.
    pub column_offset: u64,
    /// How many bytes it is.
    pub column_bytes: u64,
}

impl Layout {
    /// What no call gives: a number that isn't set is seen.
    const UNSET: Layout = Layout {
        rows: u64::MAX,
        columns: u64::MAX,
        lines_offset: u64::MAX,
        lines_bytes: u64::MAX,
        row_offset: u64::MAX,
        row_bytes: u64::MAX,
        column_offset: u64::MAX,
        column_bytes: u64::MAX,
    };
}

/// What a check of a store file counts. All 0 where the file is refused.
#[repr(C)]
#[derive(Clone, Copy, Debug, Default, PartialEq, Eq)]
pub struct Check {
    /// The rows.
    pub rows: u64,
    /// The columns.
    pub columns: u64,
    /// The lines for each mark, 0 to 4: C's `clean` to `faulty`.
    pub lines: [u64; 5],
    /// The passes of the repair.
    pub passes: u64,
}

impl Check {
    /// What no call gives: a number that isn't set is seen.
    const UNSET: Check = Check {
        rows: u64::MAX,
        columns: u64::MAX,
        lines: [u64::MAX; 5],
        passes: u64::MAX,
    };
}

/// Opens a store file; gives the answer, and where its parts stand.
#[must_use]
pub fn open_file(file: &[u8]) -> (u32, Layout) {
    let mut layout = Layout::UNSET;
    // SAFETY: see above, in `c`.
    let answer = unsafe { declared::sudoku_open_file(file.as_ptr(), file.len(), &mut layout) };
    (answer, layout)
}

/// Writes the 28 bytes that a store file of these sides begins with; gives the
/// answer.
#[must_use]
pub fn write_header(rows: usize, columns: usize, header: &mut [u8]) -> u32 {
    // SAFETY: see above, in `c`.
    unsafe { declared::sudoku_write_header(rows, columns, header.as_mut_ptr(), header.len()) }
}

/// How many bytes of a store file have to be read to open or refuse it, if it
/// begins with these: 28 where the header is refused already, and otherwise one
/// more than it requires, to see that nothing follows.
#[must_use]
pub fn bytes_needed(start: &[u8]) -> usize {
    // SAFETY: see above, in `c`.
    unsafe { declared::sudoku_bytes_needed(start.as_ptr(), start.len()) }
}

/// Opens a store file, repairs its store and counts the marks; gives the answer
/// and the counts.
#[must_use]
pub fn check_file(file: &[u8], out: Out) -> (u32, Check) {
    let mut check = Check::UNSET;
    // SAFETY: see above, in `c`.
    let answer = unsafe {
        declared::sudoku_check_file(
            file.as_ptr(),
            file.len(),
            out.lines.as_mut_ptr(),
            out.lines.len(),
            out.marks.as_mut_ptr(),
            out.marks.len(),
            out.row_table.as_mut_ptr(),
            out.row_table.len(),
            out.column_table.as_mut_ptr(),
            out.column_table.len(),
            &mut check,
        )
    };
    (answer, check)
}
