//! Parity lines as request Q-3 words them, in the peer's repair.

mod given;
#[allow(dead_code)]
#[path = "../../reference/tests/q2/mod.rs"]
mod q2;
#[allow(dead_code)]
#[path = "../../reference/tests/q3/mod.rs"]
mod q3;

use given::repair;
use reference::random::Random;

#[test]
fn bad_parity_lines_are_made_whole() {
    let small = q2::every_set()
        .chain(q2::every_place())
        .chain(q2::spare_bits());
    for spoilt in small.chain(q2::large(512)) {
        q3::expect_whole(&spoilt.store, repair);
    }
}

#[test]
fn repairs_worked_out_by_hand() {
    q3::expect_cases(q3::all(), repair);
    q3::expect_cases(q3::every_place(), repair);
    q3::expect_cases(q3::on_the_way_to_another(), repair);
}

#[test]
fn what_the_written_buffers_held_does_not_matter() {
    q3::fillings(repair);
}

#[test]
fn answers_in_checking_order() {
    q3::expect_answers(&q3::repairs_in_order(), repair);
    q3::expect_answers(&q3::one_wrong_length(), repair);
}

#[test]
fn drawn_calls_answer_as_the_request_says() {
    let mut random = Random::new(20);
    let mut seen = q3::Seen::default();
    for _ in 0..8_000 {
        let call = q2::drawn_call(&mut random, 5);
        seen.check(&call, &repair(&call));
    }
    println!("repairs {seen:?}");
    seen.expect(100);
}
