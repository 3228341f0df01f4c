//! What rebuilding alone would save in the peer, as request Q-6 words it and as
//! the reference has it.

mod given;
// Stores hurt in any way are left to the reference and the library.
#[allow(dead_code)]
#[path = "../../reference/tests/q6/mod.rs"]
mod q6;

use q6::repairs::{Beside, expect_equal, faulty_alone, for_trials, past_trials};
use q6::{Hurt, cases};
use reference::draw::forecast as draw;
use reference::draw::forecast::{Call, Given, Way};
use reference::draw::{self as stores, Outcome, Store};
use reference::random::Random;

fn forecast(call: &Call) -> Given {
    let mut marks = call.marks.clone();
    let (answer, passes) = peer::forecast(call.rows, call.columns, &call.faulty, &mut marks);
    Given {
        answer,
        passes,
        marks,
    }
}

/// The peer's repair of a store.
fn repair(random: &mut Random, store: &Store) -> Outcome {
    given::repair(&stores::call_on(random, store.clone()))
}

#[test]
fn patterns_worked_out_by_hand() {
    q6::expect_cases(&cases::all(), forecast);
    for side in [4, 6, 64, 126] {
        q6::expect_cases(&cases::large(side), forecast);
    }
    q6::expect_long_cases(&cases::large(512), forecast);
}

#[test]
fn calls_that_are_refused() {
    q6::expect_refused(&cases::refused(), forecast);
}

#[test]
fn every_pattern_of_small_rectangles() {
    for sides in q6::small_sides() {
        let patterns = q6::expect_every_pattern(sides, forecast);
        assert_eq!(patterns, q6::pattern_count(sides));
    }
}

#[test]
fn drawn_calls_agree() {
    let mut random = Random::new(65);
    let mut seen = q6::Seen::default();
    for _ in 0..5_000 {
        let call = draw::call(&mut random, 16);
        let given = forecast(&call);
        assert_eq!(given, call.forecast());
        seen.check(&call, &given);
    }
    println!("{seen:?}");
    seen.expect(100);
}

#[test]
fn wide_and_high_patterns_agree() {
    let mut random = Random::new(66);
    let sides = [(2, 512), (512, 2), (3, 65), (65, 64), (128, 127), (40, 200)];
    for (sides, way) in sides.iter().flat_map(|of| Way::ALL.map(|way| (*of, way))) {
        let faulty = draw::pattern_by(&mut random, sides, way);
        let call = draw::call_on(&mut random, sides, faulty);
        let (given, due) = (forecast(&call), call.forecast());
        assert!(given == due, "sides {sides:?}, {way:?}");
    }
}

#[test]
fn it_is_repair_without_trials() {
    let mut random = Random::new(67);
    for (hurt, way) in Hurt::ALL.iter().flat_map(|h| Way::ALL.map(|way| (*h, way))) {
        let sides = stores::sides(&mut random, 60);
        let faulty = draw::pattern_by(&mut random, sides, way);
        let call = draw::call_on(&mut random, sides, faulty);
        let store = past_trials(&mut random, &call, hurt);
        expect_equal(&call, &forecast(&call), &repair(&mut random, &store));
    }
}

#[test]
fn with_trials_no_other_line_is_left() {
    let mut random = Random::new(68);
    let mut beside = Beside::default();
    for _ in 0..1_000 {
        let sides = stores::sides(&mut random, 10);
        let store = for_trials(&mut random, sides);
        let call = faulty_alone(&mut random, &store);
        beside.check(&call, &forecast(&call), &repair(&mut random, &store));
    }
    println!("{beside:?}");
    beside.expect(40);
    beside.expect_other_passes(20);
}
