//! What request Q-3 says of parity lines in a repair: each is read alone first.
//! An accepted one is used as read; a faulty one makes its group unusable. Both
//! tables are written out: accepted ones as read, faulty ones as found, or made
//! afresh where no line is left faulty. Answer 12 compares the accepted ones.
//! Repair no longer gives 13 or 14.
//!
//! Everything here takes what an implementation gives, so that the tests of
//! the library and of the peer use it too.

pub mod cases;

use reference::draw::{self, Call, Outcome, Store, call_on, flip};
use reference::line::{self, Line, ZERO, exclusive_or, places};
use reference::random::Random;
use reference::{DATA_BYTES, LINE_BYTES, PLACES, read_line, write_line};

use super::q2::{self, Ladder};

pub use cases::{Case, all, every_place, on_the_way_to_another};

/// Every line and parity line of a store with its spare bits set.
pub fn all_spare_bits(store: &Store) -> Store {
    let mut store = store.clone();
    let tables = [&mut store.row_table, &mut store.column_table];
    for lines in tables.into_iter().chain([&mut store.lines]) {
        q2::set_spare_bits(lines, 0x7F);
    }
    store
}

/// These cases, on a store of zero lines and on a drawn one, with spare bits 0
/// and with all of them set: they never count, and are written 0.
pub fn expect_cases(cases: impl Iterator<Item = Case>, repair: impl Fn(&Call) -> Outcome) {
    let mut random = Random::new(30);
    for case in cases {
        let (rows, columns) = case.sides;
        let drawn = Store::random(&mut random, rows, columns);
        for written in [Store::zero(rows, columns), drawn] {
            let hurt = case.hurt(&written);
            for found in [all_spare_bits(&hurt), hurt] {
                let given = repair(&call_on(&mut random, found));
                expect(&given, &case.expected(&written), &case.says);
            }
        }
    }
}

#[track_caller]
fn expect(given: &Outcome, expected: &Outcome, what: &str) {
    let numbers = |of: &Outcome| (of.answer, of.passes, of.marks.clone());
    assert_eq!(numbers(given), numbers(expected), "{what}");
    assert!(given.lines == expected.lines, "{what}: other lines");
    let tables = |of: &Outcome| (of.row_table.clone(), of.column_table.clone());
    assert!(tables(given) == tables(expected), "{what}: other tables");
}

/// A store of correct lines, whose parity lines may have up to six damaged bits
/// each: repair gives 0 and neither 13 nor 14, and all is as it was written.
pub fn expect_whole(store: &Store, repair: impl Fn(&Call) -> Outcome) {
    let mut written = store.clone();
    assert_eq!(written.tables_anew(), 0);
    let whole = Outcome {
        answer: 0,
        passes: 0,
        lines: written.lines,
        marks: vec![0; store.count()],
        row_table: written.row_table,
        column_table: written.column_table,
    };
    let call = call_on(&mut Random::new(34), store.clone());
    expect(&repair(&call), &whole, "whole lines");
}

/// What the written buffers held before doesn't matter.
pub fn fillings(repair: impl Fn(&Call) -> Outcome) {
    let mut random = Random::new(31);
    for _ in 0..300 {
        let store = draw::hurt_store(&mut random, 5);
        let once = repair(&call_on(&mut random, store.clone()));
        let again = repair(&call_on(&mut random, store));
        expect(&again, &once, "another filling");
    }
}

/// Repairs for every answer; whatever fits later in the list is wrong too. Bad
/// parity lines are refused nowhere in it.
pub fn repairs_in_order() -> Vec<q2::Case> {
    let mut ladder = Ladder::new();
    // Line 11 is a correct line, but not the one written.
    ladder.step(12, |call| {
        let mut data = [0; DATA_BYTES];
        data.copy_from_slice(&call.lines[11 * LINE_BYTES..][..DATA_BYTES]);
        data[0] ^= 1;
        write_line(&data, &mut call.lines[11 * LINE_BYTES..]);
    });
    // Four lines of two rows and two columns, hurt alike.
    ladder.step(11, |call| {
        for n in [0, 1, 4, 5] {
            flip(&mut call.lines[n * LINE_BYTES..], &[0, 1]);
        }
    });
    ladder.step(11, |call| flip(&mut call.column_table[140..], &[0, 1]));
    ladder.step(11, |call| flip(&mut call.row_table[70..], &[543]));
    ladder.step(7, |call| call.marks.push(0));
    ladder.step(7, |call| call.out.truncate(839));
    ladder.step(6, |call| call.column_out.truncate(279));
    ladder.step(6, |call| call.row_out.push(0));
    ladder.wrong_sizes();
    ladder.cases
}

/// Calls with one length wrong and nothing else: 5 for the lines read, 6 for
/// each of the four tables, 7 for lines and marks written.
pub fn one_wrong_length() -> Vec<q2::Case> {
    type Buffer = fn(&mut Call) -> &mut Vec<u8>;
    let buffers: [(Buffer, u32); 7] = [
        (|call| &mut call.lines, 5),
        (|call| &mut call.row_table, 6),
        (|call| &mut call.column_table, 6),
        (|call| &mut call.row_out, 6),
        (|call| &mut call.column_out, 6),
        (|call| &mut call.out, 7),
        (|call| &mut call.marks, 7),
    ];
    let store = Store::random(&mut Random::new(32), 2, 3);
    let whole = call_on(&mut Random::new(33), store);
    let mut cases = vec![(whole.clone(), 0)];
    for (buffer, answer) in buffers {
        let right = buffer(&mut whole.clone()).len();
        // 140 and 210 are the lengths of the two tables.
        for length in [0, right - 1, right + 1, right + 70, 2 * right, 140, 210] {
            if length != right {
                let mut call = whole.clone();
                buffer(&mut call).resize(length, 0x3C);
                cases.push((call, answer));
            }
        }
    }
    cases
}

/// These repairs give their answers; a refusal writes none of the four buffers
/// and makes no pass.
pub fn expect_answers(cases: &[q2::Case], repair: impl Fn(&Call) -> Outcome) {
    for (call, answer) in cases {
        let given = repair(call);
        assert_eq!(given.answer, *answer);
        if ![0, 11, 12].contains(answer) {
            expect(&given, &turned_back(call, *answer), "a refusal");
        }
    }
}

/// What a refusal gives: the buffers are as before.
fn turned_back(call: &Call, answer: u32) -> Outcome {
    Outcome {
        answer,
        ..Outcome::before(call)
    }
}

/// The first refusal that fits a call, by the list.
pub fn refusal(call: &Call) -> Option<u32> {
    let Call { rows, columns, .. } = *call;
    let side = |side: usize| (2..=512).contains(&side);
    if !side(rows) || !side(columns) {
        return Some(2);
    }
    let area = rows * columns;
    let table = |table: &[u8], side: usize| table.len() == side * LINE_BYTES;
    let of_rows = table(&call.row_table, rows) && table(&call.row_out, rows);
    let of_columns = table(&call.column_table, columns) && table(&call.column_out, columns);
    if !table(&call.lines, area) {
        Some(5)
    } else if !of_rows || !of_columns {
        Some(6)
    } else if !table(&call.out, area) || call.marks.len() != area {
        Some(7)
    } else {
        None
    }
}

/// What became of a parity line.
#[derive(Clone, Copy, PartialEq)]
enum Parity {
    /// Accepted, and correct as found.
    Clean,
    /// Accepted, and rewritten.
    Rewritten,
    /// Faulty, and given as found.
    AsFound,
    /// Faulty, and made afresh.
    Afresh,
}

/// What drawn repairs came to.
#[derive(Debug, Default)]
pub struct Seen {
    refused: usize,
    /// Parity lines by what became of them.
    parity: [usize; 4],
    /// Repairs by their answers 0, 11 and 12.
    answers: [usize; 3],
    /// Those of them with an unusable group.
    with_unusable: [usize; 3],
}

impl Seen {
    /// Holds what a drawn repair gave against the request's words. (How lines
    /// are mended is held against repair stated anew, in `q1`.)
    pub fn check(&mut self, call: &Call, given: &Outcome) {
        if let Some(answer) = refusal(call) {
            expect(given, &turned_back(call, answer), "a refusal");
            self.refused += 1;
            return;
        }
        let left = given.marks.contains(&4);
        let (rows, columns) = (call.rows, call.columns);
        let of_rows = (0..rows).map(|row| {
            let members = (0..columns).map(|column| row * columns + column).collect();
            (&call.row_table, &given.row_table, row, members)
        });
        let of_columns = (0..columns).map(|column| {
            let members = (0..rows).map(|row| row * columns + column).collect();
            (&call.column_table, &given.column_table, column, members)
        });
        let (mut differs, mut unusable) = (false, false);
        for (table, out, n, members) in of_rows.chain(of_columns) {
            let (found, written) = (nth(table, n), nth(out, n));
            let sum = sum_of(&given.lines, members);
            match self.check_parity(found, written, &sum, left) {
                Parity::Clean | Parity::Rewritten => differs |= places(written) != sum,
                Parity::AsFound | Parity::Afresh => unusable = true,
            }
        }
        let expected = match (left, differs) {
            (true, _) => 11,
            (false, true) => 12,
            (false, false) => 0,
        };
        assert_eq!(given.answer, expected);
        let which = [0, 11, 12].iter().position(|&answer| answer == expected);
        let which = which.unwrap_or(0);
        self.answers[which] += 1;
        self.with_unusable[which] += usize::from(unusable);
    }

    /// One parity line, as found and as written out, and what its group's lines
    /// sum up to; gives what became of it.
    fn check_parity(&mut self, found: &[u8], written: &[u8], sum: &Line, left: bool) -> Parity {
        // A faulty line's reading is the line as found, spare bits 0.
        let mut expected = [0; LINE_BYTES];
        let became = match read_line(found, &mut expected).mark {
            0 => Parity::Clean,
            1 => Parity::Rewritten,
            _ if left => Parity::AsFound,
            _ => Parity::Afresh,
        };
        if became == Parity::Afresh {
            expected = line::bytes(sum);
        }
        assert_eq!(written, expected);
        self.parity[became as usize] += 1;
        became
    }

    /// All of these came up so often.
    pub fn expect(&self, least: usize) {
        let groups = [&self.parity[..], &self.answers, &self.with_unusable];
        let mut counts = groups.concat();
        counts.push(self.refused);
        assert!(counts.iter().all(|&count| count >= least), "{self:?}");
    }
}

/// The bytes of the nth line.
fn nth(lines: &[u8], n: usize) -> &[u8] {
    &lines[n * LINE_BYTES..][..LINE_BYTES]
}

/// The exclusive or of some lines.
fn sum_of(lines: &[u8], members: Vec<usize>) -> Line {
    let lines = members.into_iter().map(|n| places(nth(lines, n)));
    lines.fold(ZERO, |sum, line| exclusive_or(&sum, &line))
}
