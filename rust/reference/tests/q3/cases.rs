//! Stores with damage in lines and parity lines, and what repair makes of each,
//! worked out by hand.
//!
//! Reading alone, mismatches and sums depend on the damage and not on what was
//! written. So each case goes for any rectangle written, and both what is
//! found and what is given are told by the places that differ from it.

use super::{Outcome, PLACES, Store};

/// Two places that make a line faulty.
pub const TWO: &[usize] = &[0, 1];

/// Two others.
pub const ELSE: &[usize] = &[2, 3];

/// Places that, set alone, are a correct line: no two correct lines differ in
/// fewer. Flipped in a correct line, they make another of it.
pub const EIGHT: [usize; 8] = [2, 210, 264, 384, 431, 441, 459, 480];

/// The places of the line whose only data place set is 511: the starred sample's
/// bytes 80, and C7 6F 66 56 09 00 after it.
pub const LAST: [usize; 22] = [
    511, 512, 513, 514, 518, 519, 520, 521, 522, 523, 525, 526, 529, 530, 533, 534, 537, 538, 540,
    542, 543, 546,
];

/// Those of the eight whose bit is set.
pub fn some_of_eight(bits: usize) -> Vec<usize> {
    let all = EIGHT.iter().enumerate();
    let set = all.filter(|&(i, _)| bits >> i & 1 == 1);
    set.map(|(_, &place)| place).collect()
}

/// The Hamming bits.
pub const HAMMING: [usize; 10] = [543, 544, 545, 546, 547, 548, 549, 550, 551, 552];

/// Places that differ from what was written: of some lines, of rows' and of
/// columns' parity lines, each by its number.
#[derive(Clone, Default)]
pub struct Places {
    lines: Vec<(usize, Vec<usize>)>,
    rows: Vec<(usize, Vec<usize>)>,
    columns: Vec<(usize, Vec<usize>)>,
}

/// No place at all.
pub fn nothing() -> Places {
    Places::default()
}

impl Places {
    /// The store that differs from the one written at these places.
    pub fn flipped_in(&self, written: &Store) -> Store {
        let mut store = written.clone();
        for (n, places) in &self.lines {
            store.hurt(*n, places);
        }
        for (row, places) in &self.rows {
            store.hurt_row_parity(*row, places);
        }
        for (column, places) in &self.columns {
            store.hurt_column_parity(*column, places);
        }
        store
    }

    /// And these of line n.
    pub fn line(mut self, n: usize, places: &[usize]) -> Places {
        self.lines.push((n, places.to_vec()));
        self
    }

    /// And these of a row's parity line.
    pub fn row(mut self, row: usize, places: &[usize]) -> Places {
        self.rows.push((row, places.to_vec()));
        self
    }

    /// And these of a column's parity line.
    pub fn column(mut self, column: usize, places: &[usize]) -> Places {
        self.columns.push((column, places.to_vec()));
        self
    }
}

/// A store hurt, and what repair gives for it.
#[derive(Clone)]
pub struct Case {
    pub says: String,
    pub sides: (usize, usize),
    hurt: Places,
    answer: u32,
    passes: u64,
    marks: Vec<u8>,
    left: Places,
}

impl Case {
    /// The store that was written so, hurt.
    pub fn hurt(&self, written: &Store) -> Store {
        self.hurt.flipped_in(written)
    }

    /// What repair then gives.
    pub fn expected(&self, written: &Store) -> Outcome {
        let given = self.left.flipped_in(written);
        Outcome {
            answer: self.answer,
            passes: self.passes,
            lines: given.lines,
            marks: self.marks.clone(),
            row_table: given.row_table,
            column_table: given.column_table,
        }
    }

    /// What `storecheck` prints for it.
    pub fn report(&self) -> String {
        let (rows, columns) = self.sides;
        let [clean, alone, trial, rebuilt, faulty] =
            [0, 1, 2, 3, 4].map(|mark| self.marks.iter().filter(|&&m| m == mark).count());
        let (passes, answer) = (self.passes, self.answer);
        format!(
            "store {rows} {columns}\nclean {clean}\nalone {alone}\ntrial {trial}\n\
             rebuilt {rebuilt}\nfaulty {faulty}\npasses {passes}\nanswer {answer}\n"
        )
    }

    /// The same with these places left in what is given.
    fn left(mut self, left: Places) -> Case {
        self.left = left;
        self
    }

    /// The same with all left as it was found.
    fn left_as_found(mut self) -> Case {
        self.left = self.hurt.clone();
        self
    }

    /// The same in a store of other sides.
    fn of_sides(mut self, rows: usize, columns: usize) -> Case {
        self.sides = (rows, columns);
        self
    }
}

/// A 2 by 2 store hurt so gives this answer, passes and marks; lines and tables
/// come back as written.
fn case(says: &str, hurt: Places, (answer, passes): (u32, u64), marks: &[u8]) -> Case {
    Case {
        says: says.to_string(),
        sides: (2, 2),
        hurt,
        answer,
        passes,
        marks: marks.to_vec(),
        left: nothing(),
    }
}

/// All cases with a name.
pub fn all() -> impl Iterator<Item = Case> {
    let mending = [accepted(), unusable(), trials(), passes(), afresh()];
    let comparing = [other_line(), other_parity_line(), rebuilt_as_another()];
    mending.into_iter().chain(comparing).flatten()
}

/// An accepted parity line is used as read, and written so.
fn accepted() -> Vec<Case> {
    // Column 0 can't help, so it is the row that rebuilds line 0.
    let by_row = |says, places| {
        let hurt = nothing().line(0, TWO).row(0, places).column(0, TWO);
        case(says, hurt, (0, 1), &[3, 0, 0, 0])
    };
    let by_column = |says, places| {
        let hurt = nothing().line(0, TWO).row(0, TWO).column(0, places);
        case(says, hurt, (0, 1), &[3, 0, 0, 0])
    };
    let six = nothing().line(0, &[10, 20]).line(1, &[100, 200, 300, 400]);
    let alike = nothing().line(0, TWO).line(1, TWO);
    let ring = (0..4).fold(nothing(), |hurt, n| hurt.line(n, TWO));
    let ring_hurt = ring.clone().row(0, &[7]).column(1, &[543]);
    vec![
        case(
            "one damaged bit in a row's parity line, and no line faulty",
            nothing().row(0, &[0]),
            (0, 0),
            &[0; 4],
        ),
        by_row("one damaged bit in a row's parity line", &[5]),
        by_column("one damaged bit in a column's parity line", &[542]),
        by_row(
            "two damaged Hamming bits in a row's parity line",
            &[543, 552],
        ),
        by_column("all ten Hamming bits of a column's parity line", &HAMMING),
        by_row("Hamming bits and no other, five of them", &HAMMING[..5]),
        case(
            "a mismatch of six places; as found it has seven",
            six.row(0, &[500]),
            (0, 1),
            &[2, 3, 0, 0],
        ),
        case(
            "an empty mismatch; as found it has a place whose trial takes",
            alike.row(0, &[0]),
            (0, 1),
            &[3, 3, 0, 0],
        ),
        case("as read also after 11", ring_hurt, (11, 1), &[4; 4]).left(ring),
    ]
}

/// An unusable group rebuilds no line.
fn unusable() -> Vec<Case> {
    let line = || nothing().line(0, TWO);
    let column = line().line(2, TWO);
    let others = nothing().line(1, &[2, 3, 4]).line(4, TWO);
    vec![
        case(
            "an unusable row: the column rebuilds",
            line().row(0, TWO),
            (0, 1),
            &[3, 0, 0, 0],
        ),
        case(
            "an unusable column: the row rebuilds",
            line().column(0, TWO),
            (0, 1),
            &[3, 0, 0, 0],
        ),
        case(
            "an unusable row and column: the line is left, the tables are as found",
            line().row(0, TWO).column(0, &[5, 6, 7, 8, 9]),
            (11, 1),
            &[4, 0, 0, 0],
        )
        .left_as_found(),
        case(
            "two lines of a column, hurt alike, that only unusable rows could rebuild",
            column.row(0, ELSE).row(1, ELSE),
            (11, 1),
            &[4, 0, 4, 0],
        )
        .left_as_found(),
        case(
            "beside unusable groups, others go by their own parity lines",
            others.row(0, TWO).column(2, TWO),
            (0, 1),
            &[0, 3, 0, 0, 3, 0],
        )
        .of_sides(2, 3),
    ]
}

/// An unusable group tries nothing.
fn trials() -> Vec<Case> {
    let pair = || nothing().line(0, TWO).line(1, ELSE);
    let without_row = || pair().row(0, &[7, 8]);
    let without_columns = |hurt: Places| hurt.column(0, TWO).column(1, TWO);
    vec![
        case("trials against a row", pair(), (0, 1), &[2, 2, 0, 0]),
        case(
            "trials against a row, where no column can help",
            without_columns(pair()),
            (0, 1),
            &[2, 2, 0, 0],
        ),
        case(
            "no trial against an unusable row, where no column can help",
            without_columns(without_row()),
            (11, 1),
            &[4, 4, 0, 0],
        )
        .left_as_found(),
        case(
            "no trial against an unusable row: each column rebuilds its line",
            without_row(),
            (0, 1),
            &[3, 3, 0, 0],
        ),
    ]
}

/// How many passes are made where some visits do nothing.
fn passes() -> Vec<Case> {
    let three = || nothing().line(0, TWO).line(1, TWO).line(2, TWO);
    vec![
        case(
            "three lines, every parity line usable",
            three(),
            (0, 1),
            &[3, 3, 3, 0],
        ),
        // Column 1 rebuilds line 1; then row 0 line 0, and column 0 line 2.
        case(
            "three lines, row 1 unusable",
            three().row(1, TWO),
            (0, 2),
            &[3, 3, 3, 0],
        ),
        // As before, but that column 0 can't rebuild line 2: a third pass
        // mends nothing.
        case(
            "three lines, row 1 and column 0 unusable",
            three().row(1, TWO).column(0, ELSE),
            (11, 3),
            &[3, 3, 4, 0],
        )
        .left(nothing().line(2, TWO).row(1, TWO).column(0, ELSE)),
    ]
}

/// Parity lines made afresh where no line is left faulty, and only there.
fn afresh() -> Vec<Case> {
    let every = |hurt: Places| {
        let rows = hurt.row(0, TWO).row(1, &[1, 2, 3, 4, 5]);
        rows.column(0, &[100, 552]).column(1, ELSE)
    };
    let one_bit = |n| nothing().line(n, &[9]);
    let ring = (0..4).fold(nothing(), |hurt, n| hurt.line(n, TWO));
    vec![
        case(
            "an unusable row, and no line faulty",
            nothing().row(0, TWO),
            (0, 0),
            &[0; 4],
        ),
        case(
            "an unusable row, and all lines given up",
            ring.row(0, TWO),
            (11, 1),
            &[4; 4],
        )
        .left_as_found(),
        case(
            "no usable parity line at all",
            every(nothing()),
            (0, 0),
            &[0; 4],
        ),
        case(
            "no usable parity line, one bit",
            every(one_bit(3)),
            (0, 0),
            &[0, 0, 0, 1],
        ),
        case(
            "no usable parity line, one line faulty",
            every(nothing().line(2, TWO)),
            (11, 1),
            &[0, 0, 4, 0],
        )
        .left_as_found(),
        case(
            "no usable parity line, one line faulty, and one bit of another",
            every(one_bit(1).line(2, TWO)),
            (11, 1),
            &[0, 1, 4, 0],
        )
        .left(every(nothing().line(2, TWO))),
    ]
}

/// Answer 12 compares the accepted parity lines and no other: a line that isn't
/// the one written.
fn other_line() -> Vec<Case> {
    let other = || nothing().line(0, &EIGHT);
    let beside = nothing().line(0, TWO).line(3, &EIGHT);
    let last = || nothing().line(0, &LAST);
    vec![
        case(
            "the line of place 511: its row and column are unusable",
            last().row(0, TWO).column(0, TWO),
            (0, 0),
            &[0; 4],
        )
        .left(last().row(0, &LAST).column(0, &LAST)),
        case(
            "the line of place 511: its column tells",
            last().row(0, TWO),
            (12, 0),
            &[0; 4],
        )
        .left(last().row(0, &LAST)),
        case(
            "another line: its row and column tell",
            other(),
            (12, 0),
            &[0; 4],
        )
        .left(other()),
        case(
            "another line: its row and column are unusable: they are made of the lines given",
            other().row(0, TWO).column(0, ELSE),
            (0, 0),
            &[0; 4],
        )
        .left(other().row(0, &EIGHT).column(0, &EIGHT)),
        case(
            "another line: its column tells",
            other().row(0, TWO),
            (12, 0),
            &[0; 4],
        )
        .left(other().row(0, &EIGHT)),
        case(
            "another line: its row tells",
            other().column(0, TWO),
            (12, 0),
            &[0; 4],
        )
        .left(other().column(0, &EIGHT)),
        case(
            "another line beside a faulty one that is left: nothing is compared",
            beside.row(0, TWO).column(0, ELSE),
            (11, 1),
            &[4, 0, 0, 0],
        )
        .left_as_found(),
    ]
}

/// The same of a parity line that isn't the one written.
fn other_parity_line() -> Vec<Case> {
    let other = || nothing().row(1, &EIGHT);
    let seven = nothing().column(1, &EIGHT[1..]);
    vec![
        case(
            "another parity line: it is used, and tells",
            other(),
            (12, 0),
            &[0; 4],
        )
        .left(other()),
        case(
            "another parity line: beside an unusable one",
            other().column(1, TWO),
            (12, 0),
            &[0; 4],
        )
        .left(other()),
        case(
            "another parity line, as which one is read",
            seven,
            (12, 0),
            &[0; 4],
        )
        .left(nothing().column(1, &EIGHT)),
    ]
}

/// A line rebuilt from a parity line that isn't the one written.
fn rebuilt_as_another() -> Vec<Case> {
    let found = || nothing().line(0, TWO).row(0, &EIGHT);
    let given = || nothing().line(0, &EIGHT).row(0, &EIGHT);
    let rebuilt = &[3, 0, 0, 0];
    let agreeing = || given().column(0, &EIGHT);
    vec![
        case(
            "rebuilt as another: its column tells",
            found(),
            (12, 1),
            rebuilt,
        )
        .left(given()),
        case(
            "rebuilt as another: its column is unusable",
            found().column(0, TWO),
            (0, 1),
            rebuilt,
        )
        .left(agreeing()),
        case(
            "rebuilt as another: its column agrees",
            found().column(0, &EIGHT),
            (0, 1),
            rebuilt,
        )
        .left(agreeing()),
    ]
}

/// Every place of a parity line damaged alone, data, CRC and Hamming bits
/// alike: it is used as read, and written so.
pub fn every_place() -> impl Iterator<Item = Case> {
    let rebuilt = |hurt: Places| case("one place", hurt, (0, 1), &[0, 0, 0, 3]);
    (0..PLACES).flat_map(move |place| {
        let line = || nothing().line(3, TWO);
        [
            rebuilt(line().row(1, &[place]).column(1, TWO)),
            rebuilt(line().row(1, TWO).column(1, &[place])),
        ]
    })
}

/// A parity line on its way to another correct one, and a line that only its
/// group can rebuild. With one damaged bit it is read as written, with two to
/// six it is faulty, with more it is taken for the other.
pub fn on_the_way_to_another() -> impl Iterator<Item = Case> {
    (0..1usize << EIGHT.len()).map(|bits| {
        let places = some_of_eight(bits);
        let says = format!("places {places:?} of row 1's parity line");
        let hurt = nothing().line(3, TWO).row(1, &places).column(1, TWO);
        let other = nothing().line(3, &EIGHT).row(1, &EIGHT).column(1, &EIGHT);
        match places.len() {
            0 | 1 => case(&says, hurt, (0, 1), &[0, 0, 0, 3]),
            2..=6 => case(&says, hurt, (11, 1), &[0, 0, 0, 4]).left_as_found(),
            _ => case(&says, hurt, (0, 1), &[0, 0, 0, 3]).left(other),
        }
    })
}
