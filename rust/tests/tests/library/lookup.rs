//! One line wanted, as request Q-4 words it: on both implementations through C's
//! functions, and on the crate's store.

#[path = "../../../reference/tests/q4/mod.rs"]
pub mod q4;

use library_tests::{
    Entry, Guarded, Interface, Library, as_many_as_usual, both, cases, compare, seed, watched,
};
use reference::draw::{self, Call, Damage, Outcome, Store};
use reference::random::Random;
use sudoku::NotWhole;
use sudoku::c::Out;

use crate::crate_over_c::store_of;
use crate::marks::q1;
use crate::parity::{q2, q3};
use crate::samples::repair;

/// What a read of one line gives for a call, over guarded buffers.
pub fn read_one(on: &dyn Interface, call: &Call) -> q4::Given {
    let mut lines = Guarded::new(&call.out, 4);
    let mut marks = Guarded::new(&call.marks, 11);
    let mut row_table = Guarded::new(&call.row_out, 5);
    let mut column_table = Guarded::new(&call.column_out, 14);
    let mut line = Guarded::new(&call.line_out, 7);
    // A copy, so that it shows where what is only read was written.
    let read = call.clone();
    let (answer, mark, step) = on.read_one(
        read.rows,
        read.columns,
        &read.lines,
        &read.row_table,
        &read.column_table,
        read.n,
        Out {
            lines: lines.content_mut(),
            marks: marks.content_mut(),
            row_table: row_table.content_mut(),
            column_table: column_table.content_mut(),
        },
        line.content_mut(),
    );
    let written = [&lines, &marks, &row_table, &column_table, &line];
    assert!(written.into_iter().all(Guarded::intact));
    let [out, marks, row_out, column_out, line_out] =
        written.map(|buffer| buffer.content().to_vec());
    q4::Given {
        answer,
        mark,
        step,
        after: Call {
            out,
            marks,
            row_out,
            column_out,
            line_out,
            ..read
        },
    }
}

/// What the crate's store gives for a call with right lengths. It owns its work
/// buffers, so those of the call count as cleared.
fn read_one_of_store(call: &Call) -> q4::Given {
    let store = store_of(&q4::store_of(call));
    let one = store.read_one(call.n).expect("a line");
    assert!(store == store_of(&q4::store_of(call)));
    let (step, mark) = (one.step.number(), one.read.mark.number());
    assert_eq!(one.read.is_faulty(), mark == 4);
    let left = (mark == 4).then_some(NotWhole::Left { lines: 1 });
    assert_eq!(one.whole().err(), left);
    q4::whole(call, (step, mark), &one.read.line)
}

/// Of many cases a memory checker is shown every 29th.
fn stride() -> usize {
    if watched() { 29 } else { 1 }
}

#[test]
fn lines_worked_out_by_hand() {
    let all = || q4::all().step_by(stride());
    for on in both() {
        q4::expect_cases(all(), |call| read_one(on, call), |call| repair(on, call));
    }
    q4::expect_cases(all(), read_one_of_store, |call| repair(&Library, call));
}

#[test]
fn lines_of_repairs_worked_out_by_hand() {
    let all = || q4::repairs_by_hand().step_by(stride());
    for on in both() {
        q4::expect_repairs(all(), |call| read_one(on, call));
    }
    q4::expect_repairs(all(), read_one_of_store);
}

#[test]
fn lines_of_large_stores() {
    // A memory checker is shown smaller ones.
    for large in q4::large(if watched() { 20 } else { 512 }) {
        large.expect(|call| read_one(&Library, call));
        large.expect(read_one_of_store);
    }
}

#[test]
fn answers_in_checking_order() {
    for on in both() {
        q4::expect_answers(&q4::reads_in_order(), |call| read_one(on, call));
        q4::expect_answers(&q4::one_thing_wrong(), |call| read_one(on, call));
    }
}

/// What repair gives for a call, by the library itself.
fn repaired(call: &Call) -> Outcome {
    repair(&Library, call)
}

#[test]
fn every_line_of_small_stores() {
    let mut random = Random::new(seed());
    let mut seen = q4::Seen::default();
    let mut count = 0;
    let with_ways = |sides| Damage::ALL.map(|way| (sides, way));
    let all = q4::small_sides().into_iter().flat_map(with_ways);
    for (sides, way) in all.step_by(stride()) {
        for _ in 0..cases(10) {
            let store = q4::hurt_store(&mut random, sides, way);
            count += every_line(&mut random, &store, &mut seen);
        }
    }
    println!("differential, every line of small stores: {count} cases");
    println!("request Q-4: {seen:?}");
    if as_many_as_usual() {
        seen.expect(100);
    }
}

/// Every line of a store: as the second implementation gives it, and as the
/// library's own repair does.
fn every_line(random: &mut Random, store: &Store, seen: &mut q4::Seen) -> usize {
    let shift = random.below(16);
    let read = |call: &Call| {
        compare(Entry::One, call, shift);
        read_one(&Library, call)
    };
    seen.check_every_line(random, store, read, repaired)
}

#[test]
fn every_line_of_chains() {
    let mut random = Random::new(seed());
    let mut seen = q4::Seen::default();
    let mut count = 0;
    for side in 2..=if watched() { 4 } else { 12 } {
        let store = draw::staircase(&mut random, side);
        count += every_line(&mut random, &store, &mut seen);
    }
    println!("differential, every line of chains: {count} cases");
}

#[test]
fn drawn_calls_answer_as_the_request_says() {
    let mut random = Random::new(seed());
    let mut seen = q4::Seen::default();
    for _ in 0..cases(8_000) {
        let call = q2::drawn_call(&mut random, 5);
        for on in both() {
            seen.check(&call, &read_one(on, &call), &repair(on, &call));
        }
    }
    println!("request Q-4: drawn calls {seen:?}");
    if as_many_as_usual() {
        seen.expect(20);
        seen.expect_refused(1_000);
    }
}
