//! One line wanted, as request Q-4 words it.

// Of these three only a part serves here: the visit of a row stated anew, drawn
// calls and the list of refusals, repairs worked out by hand.
#[allow(dead_code)]
mod q1;
#[allow(dead_code)]
mod q2;
#[allow(dead_code)]
mod q3;
mod q4;

use reference::Out;
use reference::draw::{Call, Damage};
use reference::random::Random;

fn read_one(call: &Call) -> q4::Given {
    let mut after = call.clone();
    let given = reference::read_one(
        call.rows,
        call.columns,
        &call.lines,
        &call.row_table,
        &call.column_table,
        call.n,
        Out {
            lines: &mut after.out,
            marks: &mut after.marks,
            row_table: &mut after.row_out,
            column_table: &mut after.column_out,
        },
        &mut after.line_out,
    );
    q4::Given {
        answer: given.answer,
        mark: given.mark,
        step: given.step,
        after,
    }
}

#[test]
fn lines_worked_out_by_hand() {
    q4::expect_cases(q4::all(), read_one, Call::repaired);
}

#[test]
fn lines_of_repairs_worked_out_by_hand() {
    q4::expect_repairs(q4::repairs_by_hand(), read_one);
}

#[test]
fn lines_of_large_stores() {
    q4::large(512).for_each(|large| large.expect(read_one));
}

#[test]
fn answers_in_checking_order() {
    q4::expect_answers(&q4::reads_in_order(), read_one);
    q4::expect_answers(&q4::one_thing_wrong(), read_one);
}

#[test]
fn every_line_of_small_stores_is_as_repair_gives_it() {
    let mut random = Random::new(43);
    let mut seen = q4::Seen::default();
    for sides in q4::small_sides() {
        for way in Damage::ALL {
            for _ in 0..3 {
                let store = q4::hurt_store(&mut random, sides, way);
                seen.check_every_line(&mut random, &store, read_one, Call::repaired);
            }
        }
    }
    println!("{seen:?}");
    seen.expect(20);
}

#[test]
fn drawn_calls_answer_as_the_request_says() {
    let mut random = Random::new(44);
    let mut seen = q4::Seen::default();
    for _ in 0..8_000 {
        let call = q2::drawn_call(&mut random, 5);
        seen.check(&call, &read_one(&call), &call.repaired());
    }
    println!("{seen:?}");
    seen.expect(10);
    seen.expect_refused(1_000);
}
