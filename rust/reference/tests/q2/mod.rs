//! What request Q-2 says of bad parity lines, as far as request Q-3 left it: a
//! change answers 13 with its row, or else 14 with its column, in 9's place.
//! With every other answer the number is 0.
//!
//! Everything here takes what an implementation gives, so that the tests of
//! the library use it too.

use reference::draw::{self, Call, Store, call_on, flip};
use reference::line::{SPARE, bytes, correct, exclusive_or, places};
use reference::random::Random;
use reference::{DATA_BYTES, LINE_BYTES, PLACES, write_line};

/// What a change gives: its answer, the number of a row or column, and all that
/// was handed in, as it is after.
#[derive(Clone, Debug, PartialEq, Eq)]
pub struct Given {
    pub answer: u32,
    pub number: u64,
    pub after: Call,
}

/// A refusal: nothing is written.
fn refused(call: &Call, (answer, number): (u32, usize)) -> Given {
    Given {
        answer,
        number: number as u64,
        after: call.clone(),
    }
}

/// A change of a correct line: the exclusive or of old and new line goes into
/// both its parity lines; the three have spare bits 0.
fn changed(call: &Call) -> Given {
    let mut new = [0; LINE_BYTES];
    write_line(&call.data, &mut new);
    let old = places(line_of(&call.lines, call.n));
    let change = bytes(&exclusive_or(&old, &places(&new)));
    let mut after = call.clone();
    let put = |into: &mut [u8], n: usize, line: &[u8]| {
        into[n * LINE_BYTES..][..LINE_BYTES].copy_from_slice(line);
    };
    put(&mut after.lines, call.n, &new);
    let (row, column) = (call.n / call.columns, call.n % call.columns);
    for (table, n) in [
        (&mut after.row_table, row),
        (&mut after.column_table, column),
    ] {
        let sum = exclusive_or(&places(line_of(table, n)), &places(&change));
        put(table, n, &bytes(&sum));
    }
    Given {
        answer: 0,
        number: 0,
        after,
    }
}

/// The bytes of the nth line.
fn line_of(bytes: &[u8], n: usize) -> &[u8] {
    &bytes[n * LINE_BYTES..][..LINE_BYTES]
}

/// A change gave this, to every byte.
#[track_caller]
fn expect(given: &Given, expected: &Given, what: &str) {
    let numbers = |of: &Given| (of.answer, of.number);
    assert_eq!(numbers(given), numbers(expected), "{what}");
    assert!(given.after == expected.after, "{what}: other bytes");
}

/// A store of correct lines with their tables, in which just these rows' and
/// columns' parity lines are bad; both rise.
pub struct Spoilt {
    pub store: Store,
    rows: Vec<usize>,
    columns: Vec<usize>,
}

impl Spoilt {
    /// These parity lines of a store are hurt, each at one to six places that
    /// are drawn for it. Correct lines differ in eight places or more, so that
    /// makes it bad, and it doesn't read as another line either.
    fn new(
        written: &Store,
        rows: Vec<usize>,
        columns: Vec<usize>,
        mut drawn: impl FnMut() -> Vec<usize>,
    ) -> Spoilt {
        let mut store = written.clone();
        for &row in &rows {
            store.hurt_row_parity(row, &drawn());
        }
        for &column in &columns {
            store.hurt_column_parity(column, &drawn());
        }
        Spoilt {
            store,
            rows,
            columns,
        }
    }

    fn name(&self) -> String {
        let sides = (self.store.rows, self.store.columns);
        let (rows, columns) = (&self.rows, &self.columns);
        format!("sides {sides:?}, bad rows {rows:?}, bad columns {columns:?}")
    }

    /// A change tests its own row, then its own column, and no other.
    pub fn expect_changes(&self, change: impl Fn(&Call) -> Given) {
        let mut call = call_on(&mut Random::new(2), self.store.clone());
        // Repair's buffers, which a change doesn't take.
        for buffer in [
            &mut call.out,
            &mut call.marks,
            &mut call.row_out,
            &mut call.column_out,
        ] {
            buffer.clear();
        }
        for n in self.lines_to_change() {
            call.n = n;
            let (row, column) = (n / self.store.columns, n % self.store.columns);
            let expected = if self.rows.contains(&row) {
                refused(&call, (13, row))
            } else if self.columns.contains(&column) {
                refused(&call, (14, column))
            } else {
                changed(&call)
            };
            let what = format!("{}, line {n}", self.name());
            expect(&change(&call), &expected, &what);
        }
    }

    /// All lines of a small store; of a large one those of the bad rows, row 0
    /// and the last row that stand in the bad columns, column 0 or the last.
    fn lines_to_change(&self) -> Vec<usize> {
        let (rows, columns) = (self.store.rows, self.store.columns);
        if rows * columns <= 16 {
            return (0..rows * columns).collect();
        }
        let chosen =
            |n: usize, bad: &[usize], side: usize| bad.contains(&n) || n == 0 || n == side - 1;
        let in_both = |n: &usize| {
            chosen(n / columns, &self.rows, rows) && chosen(n % columns, &self.columns, columns)
        };
        (0..rows * columns).filter(in_both).collect()
    }
}

/// Changes worked out by hand: a 2 by 2 store of zero lines, of which the parity
/// lines of a row and of a column have one damaged bit each. A line's own row
/// and column count, and no other. The line written is document 01's, of which
/// only place 511 is set; over a zero line it is the change too, and so it is
/// what stands in both parity lines.
pub fn expect_by_hand(change: impl Fn(&Call) -> Given) {
    let cases = [(1, 0, 2, (13, 1)), (0, 1, 3, (14, 1)), (0, 1, 2, (0, 0))];
    let mut last = [0; LINE_BYTES];
    last[63..].copy_from_slice(&[0x80, 0xC7, 0x6F, 0x66, 0x56, 0x09, 0x00]);
    for (row, column, n, (answer, number)) in cases {
        let mut store = Store::zero(2, 2);
        store.hurt_row_parity(row, &[0]);
        store.hurt_column_parity(column, &[0]);
        let mut call = call_on(&mut Random::new(18), store);
        (call.n, call.data) = (n, last[..DATA_BYTES].to_vec());
        let mut expected = refused(&call, (answer, number));
        if answer == 0 {
            // Line 2 stands in row 1 and column 0.
            expected.after.lines[2 * LINE_BYTES..][..LINE_BYTES].copy_from_slice(&last);
            expected.after.row_table[LINE_BYTES..].copy_from_slice(&last);
            expected.after.column_table[..LINE_BYTES].copy_from_slice(&last);
        }
        let what = format!("bad row {row}, bad column {column}, line {n}");
        expect(&change(&call), &expected, &what);
    }
}

/// Every set of bad rows with every set of bad columns: none, each alone, some
/// of one table, some of both.
pub fn every_set() -> impl Iterator<Item = Spoilt> {
    [(2, 2), (2, 3), (4, 2), (3, 4)]
        .into_iter()
        .flat_map(|(rows, columns)| {
            let mut random = Random::new(13);
            let written = Store::random(&mut random, rows, columns);
            (0..1usize << (rows + columns)).map(move |bits| {
                let set = |bits: usize, side| (0..side).filter(|i| bits >> i & 1 == 1).collect();
                let (bad_rows, bad_columns) = (set(bits, rows), set(bits >> rows, columns));
                Spoilt::new(&written, bad_rows, bad_columns, || {
                    let count = random.between(1, 6);
                    draw::places(&mut random, count)
                })
            })
        })
}

/// Every place of a parity line hurt alone: data, CRC and Hamming bits alike.
pub fn every_place() -> impl Iterator<Item = Spoilt> {
    let written = Store::random(&mut Random::new(14), 2, 2);
    (0..PLACES).flat_map(move |place| {
        let spoilt = |rows: &[usize], columns: &[usize]| {
            Spoilt::new(&written, rows.to_vec(), columns.to_vec(), || vec![place])
        };
        [spoilt(&[1], &[]), spoilt(&[], &[1])]
    })
}

/// Sets those of the seven spare bits of these lines whose bit is set.
pub fn set_spare_bits(lines: &mut [u8], bits: usize) {
    for line in lines.chunks_exact_mut(LINE_BYTES) {
        for (i, (byte, bit)) in SPARE.into_iter().enumerate() {
            line[byte] |= u8::from(bits >> i & 1 == 1) << bit;
        }
    }
}

/// Spare bits of all parity lines set in every way: they make no line bad, and
/// they don't hide one that is.
pub fn spare_bits() -> impl Iterator<Item = Spoilt> {
    let written = Store::random(&mut Random::new(15), 2, 2);
    (1..1usize << SPARE.len()).flat_map(move |bits| {
        let mut spare = written.clone();
        set_spare_bits(&mut spare.row_table, bits);
        set_spare_bits(&mut spare.column_table, bits);
        let spoilt = |rows: &[usize], columns: &[usize]| {
            Spoilt::new(&spare, rows.to_vec(), columns.to_vec(), || vec![552])
        };
        [
            spoilt(&[], &[]),
            spoilt(&[1], &[]),
            spoilt(&[], &[1]),
            spoilt(&[1], &[0]),
        ]
    })
}

/// Bad rows and columns of stores with a side, or both, of so many lines, more
/// than 256: the last ones, and those where a number needs a second byte.
pub fn large(side: usize) -> impl Iterator<Item = Spoilt> {
    let last = side - 1;
    let cases = [
        ((side, 2), vec![255], vec![]),
        ((side, 2), vec![256, last], vec![1]),
        ((side, 2), vec![last], vec![]),
        ((2, side), vec![], vec![255]),
        ((2, side), vec![], vec![256, last]),
        ((2, side), vec![1], vec![last]),
        ((side, side), vec![last], vec![last]),
        ((side, side), vec![], vec![last]),
    ];
    cases
        .into_iter()
        .map(|((rows, columns), bad_rows, bad_columns)| {
            let written = Store::zero(rows, columns);
            Spoilt::new(&written, bad_rows, bad_columns, || vec![0, 511])
        })
}

/// A call, and the answer that it gives.
pub type Case = (Call, u32);

/// A call given ever more to be refused for, from the last of the list up: each
/// time that is what it is refused for.
pub struct Ladder {
    call: Call,
    pub cases: Vec<Case>,
}

impl Ladder {
    /// Begins with a 3 by 4 store, line 6, and nothing wrong.
    pub fn new() -> Ladder {
        let store = Store::random(&mut Random::new(16), 3, 4);
        let mut call = call_on(&mut Random::new(17), store);
        call.n = 6;
        let mut ladder = Ladder {
            call,
            cases: vec![],
        };
        ladder.step(0, |_| {});
        ladder
    }

    pub fn step(&mut self, answer: u32, spoil: impl Fn(&mut Call)) {
        spoil(&mut self.call);
        self.cases.push((self.call.clone(), answer));
    }

    /// The refusals 6, 5 and 2 of all that is read.
    pub fn wrong_sizes(&mut self) {
        self.step(6, |call| call.column_table.truncate(279));
        self.step(6, |call| call.row_table.push(0));
        self.step(5, |call| call.lines.truncate(839));
        self.step(2, |call| call.columns = 1);
        self.step(2, |call| call.rows = 513);
    }
}

/// Changes for every answer; whatever fits later in the list is wrong too.
pub fn changes_in_order() -> Vec<Case> {
    let mut ladder = Ladder::new();
    ladder.step(10, |call| flip(&mut call.lines[6 * 70..], &[0, 1]));
    // Line 6 stands in row 1 and column 2.
    ladder.step(14, |call| flip(&mut call.column_table[140..], &[543]));
    ladder.step(13, |call| flip(&mut call.row_table[70..], &[543]));
    ladder.step(8, |call| call.n = 12);
    ladder.step(8, |call| call.n = usize::MAX);
    ladder.step(7, |call| call.data.truncate(63));
    ladder.wrong_sizes();
    ladder.cases
}

/// These changes of line 6 give their answers, 13 and 14 with the line's row and
/// column; a refusal writes nothing.
pub fn expect_cases(cases: &[Case], change: impl Fn(&Call) -> Given) {
    for (call, answer) in cases {
        let number = match answer {
            13 => 1,
            14 => 2,
            _ => 0,
        };
        let given = change(call);
        assert_eq!((given.answer, given.number), (*answer, number));
        let written = given.after != *call;
        assert_eq!(written, *answer == 0, "answer {answer}: other bytes");
    }
}

/// A drawn call, right or wrong, often with bad parity lines.
pub fn drawn_call(random: &mut Random, most: usize) -> Call {
    let mut call = draw::call(random, most);
    if random.once_in(2) {
        for _ in 0..random.between(1, 4) {
            let count = random.between(1, 8);
            let places = draw::places(random, count);
            let table = if random.once_in(2) {
                &mut call.row_table
            } else {
                &mut call.column_table
            };
            let side = table.len() / LINE_BYTES;
            if side > 0 {
                flip(&mut table[random.below(side) * LINE_BYTES..], &places);
            }
        }
    }
    call
}

/// Whether sides, lines and tables are such that no refusal up to 6 fits.
fn sizes_fit(call: &Call) -> bool {
    let side = |side: usize| (2..=512).contains(&side);
    side(call.rows)
        && side(call.columns)
        && call.lines.len() == call.rows * call.columns * LINE_BYTES
        && call.row_table.len() == call.rows * LINE_BYTES
        && call.column_table.len() == call.columns * LINE_BYTES
}

/// By the reference's test of a correct line: where the reference itself is
/// run, that test is judged by `every_place` and not here.
fn is_bad(table: &[u8], n: usize) -> bool {
    !correct(&places(line_of(table, n)))
}

/// What a drawn change gave, by the request's words.
pub fn check_change(call: &Call, given: &Given) {
    let due = sizes_fit(call) && call.data.len() == DATA_BYTES && call.n < call.rows * call.columns;
    let mut bad = None;
    if due {
        let (row, column) = (call.n / call.columns, call.n % call.columns);
        if is_bad(&call.row_table, row) {
            bad = Some((13, row));
        } else if is_bad(&call.column_table, column) {
            bad = Some((14, column));
        }
    }
    if let Some(bad) = bad {
        expect(given, &refused(call, bad), "a bad parity line");
        return;
    }
    let answer = given.answer;
    assert!(![9, 13, 14].contains(&answer), "answer {answer}");
    assert_eq!(given.number, 0, "answer {answer}");
}

/// How often drawn changes gave 13 and 14, for row or column 0 and for others.
#[derive(Debug, Default)]
pub struct Seen {
    rows: [usize; 2],
    columns: [usize; 2],
}

impl Seen {
    pub fn count(&mut self, given: &Given) {
        let counts = match given.answer {
            13 => &mut self.rows,
            14 => &mut self.columns,
            _ => return,
        };
        counts[usize::from(given.number != 0)] += 1;
    }

    /// All of them came up so often.
    pub fn expect(&self, least: usize) {
        let all = self.rows.iter().chain(&self.columns);
        assert!(all.into_iter().all(|&count| count >= least), "{self:?}");
    }
}
