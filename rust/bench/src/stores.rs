//! The stores that are measured, the same in every run.

/// Bytes of a line's data.
pub const DATA_BYTES: usize = 64;

/// Bytes of one line.
pub const LINE_BYTES: usize = 70;

/// Places of one line, and how many of them come before the first spare bit.
const PLACES: usize = 553;
const PROTECTED: usize = 543;

/// A square store, as repair is given it.
pub struct Store {
    /// Its rows, as many as its columns.
    pub side: usize,
    /// Its lines.
    pub lines: Vec<u8>,
    /// The parity lines of its rows.
    pub row_table: Vec<u8>,
    /// The parity lines of its columns.
    pub column_table: Vec<u8>,
}

/// Buffers that are written: lines, marks and tables of a store.
#[derive(PartialEq, Eq)]
pub struct Buffers {
    /// Lines.
    pub lines: Vec<u8>,
    /// Marks.
    pub marks: Vec<u8>,
    /// A row table.
    pub row_table: Vec<u8>,
    /// A column table.
    pub column_table: Vec<u8>,
}

impl Buffers {
    /// Buffers for a square store of this side.
    pub fn new(side: usize) -> Buffers {
        Buffers {
            lines: vec![0; side * side * LINE_BYTES],
            marks: vec![0; side * side],
            row_table: vec![0; side * LINE_BYTES],
            column_table: vec![0; side * LINE_BYTES],
        }
    }

    /// Fills them with zeros.
    pub fn clear(&mut self) {
        self.lines.fill(0);
        self.marks.fill(0);
        self.row_table.fill(0);
        self.column_table.fill(0);
    }
}

/// Data for so many lines.
pub fn data(lines: usize) -> Vec<u8> {
    let mut random = Random(1);
    let byte = |_| random.below(256) as u8;
    (0..lines * DATA_BYTES).map(byte).collect()
}

impl Store {
    /// A square store of this side, as written.
    pub fn new(side: usize) -> Store {
        let mut lines = vec![0; side * side * LINE_BYTES];
        let data = data(side * side);
        for (data, line) in data.chunks(DATA_BYTES).zip(lines.chunks_mut(LINE_BYTES)) {
            peer::write_line(data, line);
        }
        let mut row_table = vec![0; side * LINE_BYTES];
        let mut column_table = vec![0; side * LINE_BYTES];
        peer::make_tables(side, side, &lines, &mut row_table, &mut column_table);
        Store {
            side,
            lines,
            row_table,
            column_table,
        }
    }

    /// The same as a store of the crate.
    pub fn of_crate(&self) -> sudoku::Store {
        let (side, lines) = (self.side, &self.lines);
        let store =
            sudoku::Store::from_parts(side, side, lines, &self.row_table, &self.column_table);
        store.expect("right lengths")
    }

    /// The bytes of its file.
    pub fn file(&self) -> Vec<u8> {
        self.of_crate().into_bytes()
    }

    /// The store with one line in 97 that lost a bit and one in 2003 that lost
    /// two.
    pub fn lightly_hurt(&self) -> Store {
        self.hurt(|line, n| {
            if n.is_multiple_of(97) {
                flip(line, 8 * (n % DATA_BYTES));
            }
            if n.is_multiple_of(2003) {
                flip_two(line);
            }
        })
    }

    /// The store hurt past repair: about one line in fifty lost a bit, and one
    /// in 97 three to five, anywhere (fewer, should a place come twice).
    pub fn past_repair(&self) -> Store {
        let mut random = Random(2);
        self.hurt(|line, _| {
            if random.below(50) == 0 {
                flip(line, random.below(PLACES));
            }
            if random.below(97) == 0 {
                for _ in 0..3 + random.below(3) {
                    flip(line, random.below(PLACES));
                }
            }
        })
    }

    /// The store with a staircase of lines hurt alike, of which each pass can
    /// mend the ends only.
    pub fn chained(&self) -> Store {
        self.hurt(|line, n| {
            let (row, column) = (n / self.side, n % self.side);
            if column == row || column == row + 1 {
                flip_two(line);
            }
        })
    }

    /// The lightly hurt store, with one row's parity line in five hurt past
    /// reading and one column's in three hurt in one bit.
    pub fn parity_hurt(&self) -> Store {
        let mut store = self.lightly_hurt();
        store
            .row_table
            .chunks_mut(5 * LINE_BYTES)
            .for_each(flip_two);
        for line in store.column_table.chunks_mut(3 * LINE_BYTES) {
            flip(line, 9);
        }
        store
    }

    /// The store with these lines hurt at the same two places.
    pub fn hurt_alike(&self, lines: &[usize]) -> Store {
        self.hurt(|line, n| {
            if lines.contains(&n) {
                flip_two(line);
            }
        })
    }

    /// The store with each line hurt in this way, which is told its number.
    fn hurt(&self, mut way: impl FnMut(&mut [u8], usize)) -> Store {
        let mut lines = self.lines.clone();
        for (n, line) in lines.chunks_mut(LINE_BYTES).enumerate() {
            way(line, n);
        }
        Store {
            side: self.side,
            lines,
            row_table: self.row_table.clone(),
            column_table: self.column_table.clone(),
        }
    }
}

/// Flips a place of a line.
fn flip(line: &mut [u8], place: usize) {
    // One bit is spare before the Hamming bits.
    let bit = place + usize::from(place >= PROTECTED);
    line[bit / 8] ^= 1 << (bit % 8);
}

/// Flips the first two places of a line.
fn flip_two(line: &mut [u8]) {
    flip(line, 0);
    flip(line, 1);
}

/// Numbers that aren't regular.
struct Random(u64);

impl Random {
    /// A number below `bound`, which is at most 65536.
    fn below(&mut self, bound: usize) -> usize {
        self.0 = self
            .0
            .wrapping_mul(6364136223846793005)
            .wrapping_add(1442695040888963407);
        ((self.0 >> 48) as usize * bound) >> 16
    }
}
