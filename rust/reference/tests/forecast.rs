//! What rebuilding alone would save, as request Q-6 words it.

mod q6;

use q6::repairs::{Beside, expect_equal, faulty_alone, for_trials, hurt_store, past_trials};
use q6::{Hurt, cases};
use reference::draw::forecast as draw;
use reference::draw::forecast::{Call, Way};
use reference::draw::{self as stores, Damage, Store};
use reference::random::Random;

#[test]
fn patterns_worked_out_by_hand() {
    q6::expect_cases(&cases::all(), Call::forecast);
}

#[test]
fn patterns_of_large_rectangles() {
    for side in [4, 6, 64] {
        q6::expect_cases(&cases::large(side), Call::forecast);
    }
    q6::expect_long_cases(&cases::large(512), Call::forecast);
}

#[test]
fn calls_that_are_refused() {
    q6::expect_refused(&cases::refused(), Call::forecast);
}

#[test]
fn every_pattern_of_small_rectangles() {
    let patterns = q6::small_sides().map(|sides| q6::expect_every_pattern(sides, Call::forecast));
    let counts: Vec<usize> = patterns.collect();
    // 2 by 2, 3 and 4; 3 by 2, 3 and 4; 4 by 2 and 3.
    assert_eq!(counts, [16, 64, 256, 64, 512, 4096, 256, 4096]);
}

#[test]
fn drawn_calls_answer_as_the_request_says() {
    let mut random = Random::new(60);
    let mut seen = q6::Seen::default();
    for _ in 0..4_000 {
        let call = draw::call(&mut random, 12);
        seen.check(&call, &call.forecast());
    }
    for _ in 0..400 {
        let call = draw::call(&mut random, 40);
        seen.check(&call, &call.forecast());
    }
    println!("{seen:?}");
    seen.expect(100);
    seen.expect_passes(20);
}

/// All patterns of three small rectangles, and drawn ones of larger, on stores in
/// which no trial takes: repair and forecast are equal.
#[test]
fn without_trials_it_is_repair() {
    let mut random = Random::new(61);
    let every = |sides| (0..q6::pattern_count(sides)).map(move |bits| q6::pattern(sides, bits));
    for call in [(2, 3), (3, 2), (3, 3)].into_iter().flat_map(every) {
        for hurt in Hurt::ALL {
            equals_repair(&mut random, &call, hurt);
        }
    }
    for (i, way) in (0..6).flat_map(|i| Way::ALL.map(|way| (i, way))) {
        let sides = stores::sides(&mut random, 9);
        let faulty = draw::pattern_by(&mut random, sides, way);
        let call = draw::call_on(&mut random, sides, faulty);
        equals_repair(&mut random, &call, Hurt::ALL[i % 3]);
    }
}

/// The forecast of these lines and a repair in which they are faulty, hurt so.
fn equals_repair(random: &mut Random, call: &Call, hurt: Hurt) {
    let store = past_trials(random, call, hurt);
    expect_equal(call, &call.forecast(), &store.repaired(0));
}

#[test]
fn with_trials_no_other_line_is_left() {
    let mut random = Random::new(62);
    let mut beside = Beside::default();
    for _ in 0..600 {
        let sides = stores::sides(&mut random, 6);
        let store = for_trials(&mut random, sides);
        beside_repair(&mut random, &mut beside, &store);
    }
    println!("{beside:?}");
    beside.expect(20);
    beside.expect_other_passes(20);
}

/// Lines that aren't the ones written, and wrong parity lines that read as
/// correct, change nothing of it.
#[test]
fn however_a_store_is_hurt_no_other_line_is_left() {
    let mut random = Random::new(63);
    let mut beside = Beside::default();
    for way in (0..40).flat_map(|_| Damage::ALL) {
        let sides = stores::sides(&mut random, 6);
        let store = hurt_store(&mut random, sides, way);
        beside_repair(&mut random, &mut beside, &store);
    }
    println!("{beside:?}");
    beside.expect(20);
}

/// The forecast of the lines of a store that are faulty alone, beside its repair.
fn beside_repair(random: &mut Random, beside: &mut Beside, store: &Store) {
    let call = faulty_alone(random, store);
    beside.check(&call, &call.forecast(), &store.repaired(0));
}

#[test]
fn patterns_are_drawn_in_every_way() {
    let mut random = Random::new(64);
    let (mut all_lines, mut all_faulty) = (0, [0; Way::ALL.len()]);
    for _ in 0..300 {
        let sides = stores::sides(&mut random, 20);
        let lines = sides.0 * sides.1;
        all_lines += lines;
        for way in Way::ALL {
            let faulty = draw::pattern_by(&mut random, sides, way);
            let call = draw::call_on(&mut random, sides, faulty);
            let given = call.forecast();
            let marks = |mark: u8| given.marks.iter().filter(|&&of| of == mark).count();
            let (rebuilt, left) = (marks(3), marks(4));
            all_faulty[way as usize] += rebuilt + left;
            let fits = match way {
                Way::Nothing => rebuilt + left == 0,
                Way::Few => (1..=5).contains(&(rebuilt + left)),
                Way::AsGroups => (1..=sides.0 + sides.1).contains(&(rebuilt + left)),
                Way::All => left == lines,
                Way::WholeGroups => rebuilt + left >= sides.0.min(sides.1),
                // Its two ends in each pass, and where these are alone in their
                // columns both of the next lines in the second.
                Way::OpenChain => left == 0 && given.passes as usize >= rebuilt / 4,
                Way::ChainToRing => left >= 4,
                Way::Ring => rebuilt == 0 && left >= 4,
                // These may give any pattern; see below.
                Way::Scattered | Way::Most | Way::Both => continue,
            };
            assert!(fits, "{way:?}, {rebuilt} rebuilt, {left} left of {lines}");
        }
    }
    // What these are meant to give shows in all of their patterns together: of two
    // ways more lines are faulty than of one of the ten on average.
    println!("of {all_lines} lines {all_faulty:?} are faulty");
    let of = |way| all_faulty[way as usize];
    assert!((all_lines / 8..=all_lines / 2).contains(&of(Way::Scattered)));
    assert!((all_lines / 2..=all_lines * 7 / 8).contains(&of(Way::Most)));
    let others = all_faulty.iter().sum::<usize>() - of(Way::Both);
    assert!(of(Way::Both) > others / (Way::ALL.len() - 1));
}
