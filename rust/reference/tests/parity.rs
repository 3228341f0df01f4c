//! Bad parity lines as requests word them.

mod q2;
mod q3;

use q2::Spoilt;
use reference::draw::{Call, Store};
use reference::random::Random;
use reference::storecheck;

fn change(call: &Call) -> q2::Given {
    let mut after = call.clone();
    let given = reference::change_line(
        call.rows,
        call.columns,
        &mut after.lines,
        &mut after.row_table,
        &mut after.column_table,
        call.n,
        &call.data,
    );
    q2::Given {
        answer: given.answer,
        number: given.number,
        after,
    }
}

/// A change is refused with 13 and 14, and repair makes the tables whole.
fn expect_all(stores: impl Iterator<Item = Spoilt>) {
    for spoilt in stores {
        spoilt.expect_changes(change);
        q3::expect_whole(&spoilt.store, Call::repaired);
    }
}

#[test]
fn changes_worked_out_by_hand() {
    q2::expect_by_hand(change);
}

#[test]
fn every_set_of_bad_parity_lines() {
    expect_all(q2::every_set());
}

#[test]
fn every_place_of_a_parity_line() {
    expect_all(q2::every_place());
    q3::expect_cases(q3::every_place(), Call::repaired);
}

#[test]
fn spare_bits_of_parity_lines_do_not_count() {
    expect_all(q2::spare_bits());
}

#[test]
fn bad_parity_lines_of_large_stores() {
    expect_all(q2::large(512));
}

#[test]
fn repairs_worked_out_by_hand() {
    q3::expect_cases(q3::all(), Call::repaired);
}

#[test]
fn a_parity_line_on_the_way_to_another() {
    q3::expect_cases(q3::on_the_way_to_another(), Call::repaired);
}

#[test]
fn what_the_written_buffers_held_does_not_matter() {
    q3::fillings(Call::repaired);
}

#[test]
fn answers_in_checking_order() {
    q2::expect_cases(&q2::changes_in_order(), change);
    q3::expect_answers(&q3::repairs_in_order(), Call::repaired);
    q3::expect_answers(&q3::one_wrong_length(), Call::repaired);
}

#[test]
fn drawn_calls_answer_as_the_requests_say() {
    let mut random = Random::new(19);
    let (mut changes, mut repairs) = (q2::Seen::default(), q3::Seen::default());
    for _ in 0..8_000 {
        let call = q2::drawn_call(&mut random, 5);
        let given = change(&call);
        q2::check_change(&call, &given);
        changes.count(&given);
        repairs.check(&call, &call.repaired());
    }
    println!("changes {changes:?}, repairs {repairs:?}");
    changes.expect(100);
    repairs.expect(100);
}

#[test]
fn a_report_is_whole_whatever_the_parity_lines() {
    for case in q3::all() {
        let (rows, columns) = case.sides;
        let store = case.hurt(&Store::zero(rows, columns));
        assert_eq!(storecheck(&store.file()), case.report(), "{}", case.says);
    }
}
