//! Bad parity lines as requests word them: on both implementations
//! through C's functions, and on the crate's store.

#[path = "../../../reference/tests/q2/mod.rs"]
pub mod q2;
#[path = "../../../reference/tests/q3/mod.rs"]
pub mod q3;

use library_tests::{Interface, as_many_as_usual, both, cases, seed, watched};
use q2::Spoilt;
use q3::Case;
use reference::draw::{Call, Outcome};
use reference::random::Random;
use sudoku::{Refusal, Store};

use crate::samples::repair;

fn change(on: &dyn Interface, call: &Call) -> q2::Given {
    let mut after = call.clone();
    let (answer, number) = on.change_line(
        call.rows,
        call.columns,
        &mut after.lines,
        &mut after.row_table,
        &mut after.column_table,
        call.n,
        &after.data,
    );
    q2::Given {
        answer,
        number,
        after,
    }
}

/// The crate's store of this call's lines and tables, which have the right
/// lengths.
fn store_of(call: &Call) -> Store {
    Store::from_parts(
        call.rows,
        call.columns,
        &call.lines,
        &call.row_table,
        &call.column_table,
    )
    .expect("right lengths")
}

/// The numbers that C gives for a change.
fn numbers(given: Result<(), Refusal>) -> (u32, u64) {
    let Err(refusal) = given else { return (0, 0) };
    let number = match refusal {
        Refusal::RowParity { row } => row,
        Refusal::ColumnParity { column } => column,
        _ => 0,
    };
    (refusal.number(), number as u64)
}

/// What the crate's store gives for a change.
fn change_store(call: &Call) -> q2::Given {
    let mut store = store_of(call);
    let data = call.data[..].try_into().expect("64 bytes");
    let (answer, number) = numbers(store.change(call.n, data));
    let mut after = call.clone();
    after.lines = store.line_bytes().to_vec();
    after.row_table = store.row_table().to_vec();
    after.column_table = store.column_table().to_vec();
    q2::Given {
        answer,
        number,
        after,
    }
}

/// What the crate's store gives for a repair; it stays as it was.
fn repair_store(call: &Call) -> Outcome {
    let store = store_of(call);
    let repaired = store.repair();
    assert!(store == store_of(call));
    Outcome {
        answer: repaired.outcome.number(),
        passes: repaired.passes,
        lines: repaired.store.line_bytes().to_vec(),
        marks: repaired.marks.iter().map(|mark| mark.number()).collect(),
        row_table: repaired.store.row_table().to_vec(),
        column_table: repaired.store.column_table().to_vec(),
    }
}

/// On both implementations and on the crate's store a change is refused with 13
/// and 14, and repair makes the tables whole.
fn expect_all(stores: impl Iterator<Item = Spoilt>) {
    for spoilt in stores {
        for on in both() {
            spoilt.expect_changes(|call| change(on, call));
            q3::expect_whole(&spoilt.store, |call| repair(on, call));
        }
        spoilt.expect_changes(change_store);
        q3::expect_whole(&spoilt.store, repair_store);
    }
}

/// These repairs on both implementations and on the crate's store.
fn expect_cases(cases: impl Iterator<Item = Case>) {
    let cases: Vec<Case> = cases.collect();
    for on in both() {
        q3::expect_cases(cases.iter().cloned(), |call| repair(on, call));
    }
    q3::expect_cases(cases.into_iter(), repair_store);
}

/// Of many stores a memory checker is shown every 97th.
fn step() -> usize {
    if watched() { 97 } else { 1 }
}

#[test]
fn changes_worked_out_by_hand() {
    for on in both() {
        q2::expect_by_hand(|call| change(on, call));
    }
    q2::expect_by_hand(change_store);
}

#[test]
fn every_set_of_bad_parity_lines() {
    expect_all(q2::every_set());
}

#[test]
fn every_place_of_a_parity_line() {
    expect_all(q2::every_place().step_by(step()));
    expect_cases(q3::every_place().step_by(step()));
}

#[test]
fn spare_bits_of_parity_lines_do_not_count() {
    expect_all(q2::spare_bits().step_by(step()));
}

#[test]
fn bad_parity_lines_of_large_stores() {
    if watched() {
        // Those of two rows or two columns, which repair reads soon.
        expect_all(q2::large(260).filter(|spoilt| spoilt.store.count() <= 520));
    } else {
        expect_all(q2::large(512));
    }
}

#[test]
fn repairs_worked_out_by_hand() {
    expect_cases(q3::all());
}

#[test]
fn a_parity_line_on_the_way_to_another() {
    expect_cases(q3::on_the_way_to_another().step_by(step()));
}

#[test]
fn what_the_written_buffers_held_does_not_matter() {
    for on in both() {
        q3::fillings(|call| repair(on, call));
    }
}

#[test]
fn answers_in_checking_order() {
    let (mut changes, mut repairs) = (q2::changes_in_order(), q3::repairs_in_order());
    for on in both() {
        q2::expect_cases(&changes, |call| change(on, call));
        q3::expect_answers(&repairs, |call| repair(on, call));
        q3::expect_answers(&q3::one_wrong_length(), |call| repair(on, call));
    }
    // The crate's store always has the right lengths.
    for cases in [&mut changes, &mut repairs] {
        cases.retain(|(_, answer)| ![2, 5, 6, 7].contains(answer));
    }
    q2::expect_cases(&changes, change_store);
    q3::expect_answers(&repairs, repair_store);
    let answers = |cases: &[q2::Case]| -> Vec<u32> { cases.iter().map(|case| case.1).collect() };
    assert_eq!(answers(&changes), [0, 10, 14, 13, 8, 8]);
    assert_eq!(answers(&repairs), [0, 12, 11, 11, 11]);
}

#[test]
fn drawn_calls_answer_as_the_requests_say() {
    let mut random = Random::new(seed());
    let (mut changes, mut repairs) = (q2::Seen::default(), q3::Seen::default());
    for _ in 0..cases(8_000) {
        let call = q2::drawn_call(&mut random, 5);
        for on in both() {
            let given = change(on, &call);
            q2::check_change(&call, &given);
            changes.count(&given);
            repairs.check(&call, &repair(on, &call));
        }
    }
    println!("request Q-2: changes {changes:?}");
    println!("request Q-3: repairs {repairs:?}");
    if as_many_as_usual() {
        changes.expect(100);
        repairs.expect(100);
    }
}

#[test]
fn a_person_reads_what_to_do() {
    let mut store = Store::new(5, 6).expect("five by six");
    let line = 3 * 6 + 4;
    store.column_table_mut()[4 * 70] ^= 1;
    let refused = store.change(line, &[7; 64]).expect_err("a bad column");
    assert_eq!(refused, Refusal::ColumnParity { column: 4 });
    assert_eq!(
        refused.to_string(),
        "the parity line of column 4 is not a correct line: repair the store or reload the column table"
    );
    store.row_table_mut()[3 * 70] ^= 1;
    let refused = store.change(line, &[7; 64]).expect_err("a bad row");
    assert_eq!(refused, Refusal::RowParity { row: 3 });
    assert_eq!(
        refused.to_string(),
        "the parity line of row 3 is not a correct line: repair the store or reload the row table"
    );
    // Repaired, the store can be changed.
    let mut repaired = store.repair();
    assert_eq!(repaired.outcome, sudoku::Outcome::Done);
    assert_eq!(repaired.store.change(line, &[7; 64]), Ok(()));
    assert_eq!(repaired.store.repair().outcome, sudoku::Outcome::Done);
}
