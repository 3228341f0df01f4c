//! Those who do a job, and that library and peer do the same one.

use crate::stores::{Buffers, DATA_BYTES, LINE_BYTES, Store};

/// Who does a job.
#[derive(Clone, Copy)]
pub enum Doer {
    /// The proved library.
    Library,
    /// The peer.
    Peer,
    /// Nobody: the bytes are copied as they are, and all answers are 0.
    Copy,
}

/// All of them, in the order of the table.
pub const ALL: [Doer; 3] = [Doer::Library, Doer::Peer, Doer::Copy];

impl Doer {
    /// Writes a line; gives the answer.
    pub fn write_line(self, data: &[u8], line: &mut [u8]) -> u32 {
        match self {
            Doer::Library => sudoku::c::write_line(data, line),
            Doer::Peer => peer::write_line(data, line),
            Doer::Copy => {
                line[..data.len()].copy_from_slice(data);
                0
            }
        }
    }

    /// Reads a line alone; gives the answer and the mark.
    pub fn read_line(self, line: &[u8], out: &mut [u8]) -> (u32, u8) {
        match self {
            Doer::Library => sudoku::c::read_line(line, out),
            Doer::Peer => {
                let given = peer::read_line(line, out);
                (given.answer, given.mark)
            }
            Doer::Copy => {
                out.copy_from_slice(line);
                (0, 0)
            }
        }
    }

    /// Makes a store's tables; gives the answer.
    pub fn make_tables(self, store: &Store, out: &mut Buffers) -> u32 {
        let (side, lines) = (store.side, &store.lines);
        let (row_table, column_table) = (&mut out.row_table, &mut out.column_table);
        match self {
            Doer::Library => sudoku::c::make_tables(side, side, lines, row_table, column_table),
            Doer::Peer => peer::make_tables(side, side, lines, row_table, column_table),
            Doer::Copy => {
                out.lines.copy_from_slice(lines);
                0
            }
        }
    }

    /// Repairs a store; gives the answer and the passes.
    pub fn repair(self, store: &Store, out: &mut Buffers) -> (u32, u64) {
        let (side, lines) = (store.side, &store.lines);
        let (rows, columns) = (&store.row_table, &store.column_table);
        match self {
            Doer::Library => sudoku::c::repair(side, side, lines, rows, columns, lent(out)),
            Doer::Peer => {
                let out = peer::Out {
                    lines: &mut out.lines,
                    marks: &mut out.marks,
                    row_table: &mut out.row_table,
                    column_table: &mut out.column_table,
                };
                let given = peer::repair(side, side, lines, rows, columns, out);
                (given.answer, given.passes)
            }
            Doer::Copy => {
                out.lines.copy_from_slice(lines);
                out.row_table.copy_from_slice(rows);
                out.column_table.copy_from_slice(columns);
                (0, 0)
            }
        }
    }
}

/// The buffers for the library.
fn lent(out: &mut Buffers) -> sudoku::c::Out<'_> {
    sudoku::c::Out {
        lines: &mut out.lines,
        marks: &mut out.marks,
        row_table: &mut out.row_table,
        column_table: &mut out.column_table,
    }
}

/// Checks a store file with the library; gives the answer and the counts.
pub fn check_file(file: &[u8], out: &mut Buffers) -> (u32, sudoku::c::Check) {
    sudoku::c::check_file(file, lent(out))
}

/// Reads one line as repair gives it, with the library; gives the answer, the
/// mark and the step.
pub fn read_one(store: &Store, n: usize, work: &mut Buffers, line: &mut [u8]) -> (u32, u8, u32) {
    let (side, lines) = (store.side, &store.lines);
    let (rows, columns) = (&store.row_table, &store.column_table);
    sudoku::c::read_one(side, side, lines, rows, columns, n, lent(work), line)
}

/// What library and peer both give, which has to be the same.
fn both<T: PartialEq>(what: &str, mut job: impl FnMut(Doer) -> T) -> T {
    let given = job(Doer::Library);
    assert!(given == job(Doer::Peer), "library and peer differ: {what}");
    given
}

/// Makes sure that library and peer write the same lines of these data.
pub fn compare_writing(data: &[u8]) {
    for data in data.chunks(DATA_BYTES) {
        both("writing a line", |doer| {
            let mut line = [0; LINE_BYTES];
            (doer.write_line(data, &mut line), line)
        });
    }
}

/// Makes sure that library and peer do the same with a store: that they read
/// each line alone alike, give the same answer and tables, and in repair the
/// same answer, passes, lines, marks and tables. Answer and passes are the
/// expected.
pub fn compare(store: &Store, (answer, passes): (u32, u64)) {
    for line in store.lines.chunks(LINE_BYTES) {
        both("reading a line", |doer| {
            let mut out = [0; LINE_BYTES];
            (doer.read_line(line, &mut out), out)
        });
    }
    both("tables", |doer| {
        let mut out = Buffers::new(store.side);
        (doer.make_tables(store, &mut out), out)
    });
    let (given, _) = both("repair", |doer| {
        let mut out = Buffers::new(store.side);
        (doer.repair(store, &mut out), out)
    });
    assert_eq!(given, (answer, passes), "answer and passes");
}

/// Makes sure that the library gives line n as the peer's repair does, by this
/// step, and clears what it works in.
pub fn compare_one(store: &Store, n: usize, step: u32) {
    let (mut repaired, mut work) = (Buffers::new(store.side), Buffers::new(store.side));
    Doer::Peer.repair(store, &mut repaired);
    Doer::Peer.repair(store, &mut work);
    let mut line = [0; LINE_BYTES];
    let given = read_one(store, n, &mut work, &mut line);
    assert_eq!(given, (0, repaired.marks[n], step), "answer, mark and step");
    let expected = &repaired.lines[n * LINE_BYTES..][..LINE_BYTES];
    assert!(line == expected, "library and peer differ: one line");
    assert!(work == Buffers::new(store.side), "not cleared");
}
