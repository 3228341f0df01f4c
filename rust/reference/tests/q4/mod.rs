//! What request Q-4 says of one line that is wanted: it is read alone, then by
//! its row's visit, and only if both fail by the whole repair. Line and mark are
//! those that whole repair gives; the answer is 11 exactly if the line stays
//! faulty, otherwise 0; the work buffers are all zero after both. Refusals are
//! 2, 5, 6, 7 and 8.
//!
//! Everything here takes what an implementation gives, so that the tests of
//! the library use it too.

pub mod cases;

use reference::LINE_BYTES;
use reference::draw::{self, Call, Damage, Outcome, Store, call_on, flip};
use reference::random::Random;

use super::q1::before::faulty_after_row;
use super::q2::{self, Ladder};
use super::q3;

pub use cases::{Case, all};

/// The last step taken for a line, and the line's mark.
pub type Of = (u32, u8);

/// What a read of one line gives: its answer, the line's mark, the last step,
/// and all that was handed in, as it is after.
#[derive(Clone, Debug, PartialEq, Eq)]
pub struct Given {
    pub answer: u32,
    pub mark: u8,
    pub step: u32,
    pub after: Call,
}

/// A refusal: nothing is written, and step and mark are 0.
fn refused(call: &Call, answer: u32) -> Given {
    Given {
        answer,
        mark: 0,
        step: 0,
        after: call.clone(),
    }
}

/// This line with this step and mark; the work buffers are all zero, and what
/// is read stays.
pub fn whole(call: &Call, (step, mark): Of, line: &[u8]) -> Given {
    let mut after = call.clone();
    for work in [
        &mut after.out,
        &mut after.marks,
        &mut after.row_out,
        &mut after.column_out,
    ] {
        work.fill(0);
    }
    after.line_out = line.to_vec();
    Given {
        answer: if mark == 4 { 11 } else { 0 },
        mark,
        step,
        after,
    }
}

/// A read gave this, to every byte.
#[track_caller]
fn expect(given: &Given, expected: &Given, what: &str) {
    let numbers = |of: &Given| (of.answer, of.step, of.mark);
    assert_eq!(
        numbers(given),
        numbers(expected),
        "{what}: answer, step, mark"
    );
    let (after, due) = (&given.after, &expected.after);
    assert_eq!(after.line_out, due.line_out, "{what}: the line");
    assert!(after.out == due.out, "{what}: the lines to work in");
    assert!(after.marks == due.marks, "{what}: the marks to work in");
    let tables = |of: &Call| (of.row_out.clone(), of.column_out.clone());
    assert!(
        tables(after) == tables(due),
        "{what}: the tables to work in"
    );
    assert!(after == due, "{what}: what is read was written");
}

/// A call for this line of a store; what stands in all buffers that are written
/// is drawn.
fn call_for(random: &mut Random, store: &Store, n: usize) -> Call {
    let mut call = call_on(random, store.clone());
    call.n = n;
    call
}

/// These cases, every line of each, on a store of zero lines and on a drawn one,
/// with spare bits 0 and with all of them set. Repair ends as the case says.
pub fn expect_cases(
    cases: impl Iterator<Item = Case>,
    read_one: impl Fn(&Call) -> Given,
    repair: impl Fn(&Call) -> Outcome,
) {
    let mut random = Random::new(40);
    for case in cases {
        let (rows, columns) = case.sides;
        let drawn = Store::random(&mut random, rows, columns);
        for written in [Store::zero(rows, columns), drawn] {
            let (hurt, lines) = (case.hurt(&written), case.given(&written));
            for found in [q3::all_spare_bits(&hurt), hurt] {
                for (n, &of) in case.of.iter().enumerate() {
                    let call = call_for(&mut random, &found, n);
                    let what = format!("{}, line {n}", case.says);
                    expect(&read_one(&call), &whole(&call, of, lines.line(n)), &what);
                    assert_eq!(repair(&call).answer, case.repair, "{what}");
                }
            }
        }
    }
}

/// The repairs that are worked out by hand for request Q-3.
pub fn repairs_by_hand() -> impl Iterator<Item = q3::Case> {
    let places = q3::every_place().chain(q3::on_the_way_to_another());
    q3::all().chain(places)
}

/// Every line of these repairs is the one that repair gives, with its mark. The
/// step follows from the row's visit, stated anew.
pub fn expect_repairs(cases: impl Iterator<Item = q3::Case>, read_one: impl Fn(&Call) -> Given) {
    let mut random = Random::new(41);
    let mut seen = Seen::default();
    for case in cases {
        let (rows, columns) = case.sides;
        let written = Store::random(&mut random, rows, columns);
        let (found, repaired) = (case.hurt(&written), case.expected(&written));
        for n in 0..found.count() {
            let call = call_for(&mut random, &found, n);
            let after_row = || faulty_after_row(&found, n / columns);
            seen.check_line(&case.says, &call, &read_one(&call), &repaired, after_row);
        }
    }
}

/// One line of a store with a side, or both, of so many lines.
pub struct Large {
    written: Store,
    hurt: Store,
    n: usize,
    of: Of,
}

impl Large {
    fn new((rows, columns): (usize, usize), hurt: &[usize], n: usize, of: Of) -> Large {
        let written = Store::zero(rows, columns);
        let mut store = written.clone();
        hurt.iter().for_each(|&n| store.hurt(n, &[0, 511]));
        Large {
            written,
            hurt: store,
            n,
            of,
        }
    }

    /// The line comes back as written, and all work buffers are zero.
    pub fn expect(&self, read_one: impl Fn(&Call) -> Given) {
        let call = call_for(&mut Random::new(42), &self.hurt, self.n);
        let due = whole(&call, self.of, self.written.line(self.n));
        let sides = (self.hurt.rows, self.hurt.columns);
        expect(
            &read_one(&call),
            &due,
            &format!("sides {sides:?}, line {}", self.n),
        );
    }
}

/// Lines of large stores, the last ones too, by each step.
pub fn large(side: usize) -> impl Iterator<Item = Large> {
    let last = 2 * side - 1;
    let corner = side * side - 1;
    [
        Large::new((2, side), &[], last, (1, 0)),
        Large::new((2, side), &[last], last, (2, 3)),
        Large::new((2, side), &[side, last], last, (3, 3)),
        Large::new((side, 2), &[], last, (1, 0)),
        Large::new((side, 2), &[last], last, (2, 3)),
        Large::new((side, 2), &[last - 1, last], last, (3, 3)),
        Large::new((side, side), &[0], corner, (1, 0)),
        Large::new((side, side), &[0, corner], corner, (2, 3)),
        Large::new((side, side), &[corner - 1, corner], corner, (3, 3)),
    ]
    .into_iter()
}

/// Reads for every answer; whatever fits later in the list is wrong too.
pub fn reads_in_order() -> Vec<q2::Case> {
    let mut ladder = Ladder::new();
    // Line 6 and three more of two rows and two columns, hurt alike.
    ladder.step(11, |call| {
        for n in [5, 6, 9, 10] {
            flip(&mut call.lines[n * LINE_BYTES..], &[0, 1]);
        }
    });
    ladder.step(8, |call| call.n = 12);
    ladder.step(8, |call| call.n = usize::MAX);
    ladder.step(7, |call| call.line_out.truncate(69));
    ladder.step(7, |call| call.marks.push(0));
    ladder.step(7, |call| call.out.truncate(839));
    ladder.step(6, |call| call.column_out.truncate(279));
    ladder.step(6, |call| call.row_out.push(0));
    ladder.wrong_sizes();
    ladder.cases
}

/// Calls with one thing wrong and nothing else: a length, or the line's number.
/// A faulty line to be read changes none of their answers.
pub fn one_thing_wrong() -> Vec<q2::Case> {
    let mut cases = q3::one_wrong_length();
    let (whole, _) = cases[0].clone();
    for length in [0, 1, 64, 69, 71, 140] {
        let mut call = whole.clone();
        call.line_out.resize(length, 0x3C);
        cases.push((call, 7));
    }
    for n in [6, 7, 512 * 512, 1 << 32, usize::MAX] {
        cases.push((Call { n, ..whole.clone() }, 8));
    }
    let mut hurt = cases.clone();
    for (call, _) in &mut hurt {
        let at = call.n.min(5) * LINE_BYTES;
        if let Some(line) = call.lines.get_mut(at..) {
            flip(line, &[0, 1]);
        }
    }
    cases.append(&mut hurt);
    cases
}

/// These reads give their answers; a refusal writes nothing, and its step and
/// mark are 0.
pub fn expect_answers(cases: &[q2::Case], read_one: impl Fn(&Call) -> Given) {
    for (call, answer) in cases {
        let given = read_one(call);
        assert_eq!(given.answer, *answer);
        if ![0, 11].contains(answer) {
            expect(&given, &refused(call, *answer), "a refusal");
        }
    }
}

/// The first refusal that fits a call: what repair refuses, then the line's
/// buffer, then its number.
fn refusal(call: &Call) -> Option<u32> {
    let of_line = || (call.line_out.len() != LINE_BYTES).then_some(7);
    let of_number = || (call.n >= call.rows * call.columns).then_some(8);
    q3::refusal(call).or_else(of_line).or_else(of_number)
}

/// What reads came to.
#[derive(Debug, Default)]
pub struct Seen {
    refused: usize,
    /// By step, and by mark.
    steps: [[usize; 5]; 4],
    /// Lines that came back whole, by step, and by repair's answers 0, 11, 12.
    beside: [[usize; 3]; 4],
}

impl Seen {
    /// Holds a drawn read against the request's words, given what repair gives
    /// for the same call.
    pub fn check(&mut self, call: &Call, given: &Given, repaired: &Outcome) {
        if let Some(answer) = refusal(call) {
            expect(given, &refused(call, answer), "a refusal");
            self.refused += 1;
            return;
        }
        let store = store_of(call);
        let row = call.n / call.columns;
        let after_row = || faulty_after_row(&store, row);
        self.check_line("drawn", call, given, repaired, after_row);
    }

    /// Every line of a store by the same words; gives how many there are.
    pub fn check_every_line(
        &mut self,
        random: &mut Random,
        store: &Store,
        read_one: impl Fn(&Call) -> Given,
        repair: impl Fn(&Call) -> Outcome,
    ) -> usize {
        let repaired = repair(&call_for(random, store, 0));
        for row in 0..store.rows {
            // Worked out where it is asked for.
            let mut after_row = None;
            for n in row * store.columns..(row + 1) * store.columns {
                let call = call_for(random, store, n);
                let faulty = || {
                    after_row
                        .get_or_insert_with(|| faulty_after_row(store, row))
                        .clone()
                };
                self.check_line("drawn", &call, &read_one(&call), &repaired, faulty);
            }
        }
        store.count()
    }

    /// A read that isn't refused. `after_row` are the lines that are faulty after
    /// the visit of its row, by repair stated anew.
    fn check_line(
        &mut self,
        what: &str,
        call: &Call,
        given: &Given,
        repaired: &Outcome,
        after_row: impl FnOnce() -> Vec<usize>,
    ) {
        let (n, mark) = (call.n, repaired.marks[call.n]);
        // Marks 0 and 1 are those of lines accepted alone.
        let step = match mark {
            0 | 1 => 1,
            _ if !after_row().contains(&n) => 2,
            _ => 3,
        };
        let due = whole(call, (step, mark), nth(&repaired.lines, n));
        let sides = (call.rows, call.columns);
        expect(given, &due, &format!("{what}, sides {sides:?}, line {n}"));

        self.steps[step as usize][usize::from(mark)] += 1;
        let answers = [0, 11, 12];
        if let (0, Some(answer)) = (
            given.answer,
            answers.iter().position(|&a| a == repaired.answer),
        ) {
            self.beside[step as usize][answer] += 1;
        }
    }

    /// All that can come up did so often: each step with each of its marks, and
    /// lines that came back whole whatever repair answered.
    pub fn expect(&self, least: usize) {
        let marks: [&[usize]; 4] = [&[], &[0, 1], &[2, 3], &[2, 3, 4]];
        for (step, marks) in marks.into_iter().enumerate() {
            for (mark, &count) in self.steps[step].iter().enumerate() {
                let due = marks.contains(&mark);
                assert!(due || count == 0, "step {step}, mark {mark}");
                assert!(!due || count >= least, "step {step}, mark {mark}: {self:?}");
            }
        }
        let mut beside = self.beside[1..].iter().flatten();
        assert!(beside.all(|&count| count >= least), "{self:?}");
    }

    /// And so often calls were refused.
    pub fn expect_refused(&self, least: usize) {
        assert!(self.refused >= least, "{self:?}");
    }
}

/// The store that a call with right lengths is about.
pub fn store_of(call: &Call) -> Store {
    Store {
        rows: call.rows,
        columns: call.columns,
        lines: call.lines.clone(),
        row_table: call.row_table.clone(),
        column_table: call.column_table.clone(),
    }
}

/// Sides of small stores: all from 2 to 5, and some wider.
pub fn small_sides() -> Vec<(usize, usize)> {
    let mut sides: Vec<(usize, usize)> = vec![];
    for rows in 2..=5 {
        sides.extend((2..=5).map(|columns| (rows, columns)));
    }
    sides.extend([(2, 17), (17, 2), (3, 9), (9, 3), (8, 8)]);
    sides
}

/// A store of these sides hurt in this way, often with spare bits set.
pub fn hurt_store(random: &mut Random, (rows, columns): (usize, usize), way: Damage) -> Store {
    let mut store = Store::random(random, rows, columns);
    draw::hurt(random, &mut store, way);
    if random.once_in(3) {
        draw::set_spare_bits(random, &mut store.lines, 2);
        draw::set_spare_bits(random, &mut store.row_table, 2);
        draw::set_spare_bits(random, &mut store.column_table, 2);
    }
    store
}

/// The bytes of the nth line.
fn nth(lines: &[u8], n: usize) -> &[u8] {
    &lines[n * LINE_BYTES..][..LINE_BYTES]
}
