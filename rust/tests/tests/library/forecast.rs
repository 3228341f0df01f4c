//! What rebuilding alone would save, as request Q-6 words it: both implementations
//! through C's functions, and these against each other.

#[path = "../../../reference/tests/q6/mod.rs"]
pub mod q6;

use library_tests::forecast::{both_forecast, forecast};
use library_tests::{Interface, Library, as_many_as_usual, both, cases, seed, watched};
use reference::draw;
use reference::draw::forecast::{Call, Given, Way, call, call_on, faulty_byte, pattern_by};
use reference::random::Random;

/// Forecasts on an implementation, over guarded buffers.
pub fn forecasts(on: &dyn Interface) -> impl Fn(&Call) -> Given {
    move |call| forecast(on, call, 3)
}

#[test]
fn patterns_worked_out_by_hand() {
    for on in both() {
        q6::expect_cases(&q6::cases::all(), forecasts(on));
        q6::expect_cases(&q6::cases::large(6), forecasts(on));
    }
}

#[test]
fn patterns_of_large_rectangles() {
    // A memory checker is shown smaller ones.
    let side = if watched() { 20 } else { 512 };
    q6::expect_long_cases(&q6::cases::large(side), forecasts(&Library));
}

#[test]
fn calls_that_are_refused() {
    for on in both() {
        q6::expect_refused(&q6::cases::refused(), forecasts(on));
    }
}

/// Sides of rectangles whose patterns are all examined. A memory checker is shown
/// those that have few lines.
fn small_sides() -> impl Iterator<Item = (usize, usize)> {
    let most = if watched() { 6 } else { 12 };
    q6::small_sides().filter(move |(rows, columns)| rows * columns <= most)
}

#[test]
fn every_pattern_of_small_rectangles() {
    let expect_every = |sides| q6::expect_every_pattern(sides, forecasts(&Library));
    let count: usize = small_sides().map(expect_every).sum();
    assert_eq!(count, small_sides().map(q6::pattern_count).sum());
}

/// Every pattern, with drawn bytes: also of four rows and four columns.
#[test]
fn every_pattern_agrees() {
    let mut random = Random::new(seed());
    let mut count = 0;
    let largest = (!watched()).then_some((4, 4));
    for sides in small_sides().chain(largest) {
        for bits in 0..q6::pattern_count(sides) {
            let mut byte = |n| u8::from(bits >> n & 1 == 1) * faulty_byte(&mut random);
            let faulty = (0..sides.0 * sides.1).map(&mut byte).collect();
            let call = call_on(&mut random, sides, faulty);
            both_forecast(&call, random.below(16));
            count += 1;
        }
    }
    println!("differential, forecast, every pattern of small rectangles: {count} cases");
}

/// What drawn patterns came to.
#[derive(Debug, Default)]
struct Drawn {
    patterns: usize,
    most_passes: u64,
}

impl Drawn {
    /// Compares both implementations on a pattern of each way.
    fn compare(&mut self, random: &mut Random, sides: (usize, usize)) {
        for way in Way::ALL {
            let faulty = pattern_by(random, sides, way);
            let call = call_on(random, sides, faulty);
            let given = both_forecast(&call, random.below(16));
            assert_eq!(given.answer, 0, "{sides:?}, {way:?}");
            self.patterns += 1;
            self.most_passes = self.most_passes.max(given.passes);
        }
    }

    /// Prints the line that the gate counts; some pattern took many passes.
    fn print(&self, name: &str) {
        println!("differential, forecast, {name}: {} cases", self.patterns);
        println!("    most passes {}", self.most_passes);
        if as_many_as_usual() && !watched() {
            assert!(self.most_passes >= 15);
        }
    }
}

#[test]
fn patterns_of_many_sizes_agree() {
    let mut random = Random::new(seed());
    let mut drawn = Drawn::default();
    let most = if watched() { 8 } else { 48 };
    for case in 0..cases(2_000) {
        let sides = draw::sides(&mut random, 2 + case % most);
        drawn.compare(&mut random, sides);
    }
    drawn.print("patterns of many sizes");
}

#[test]
fn patterns_of_sides_2_and_512_agree() {
    let mut random = Random::new(seed());
    let mut drawn = Drawn::default();
    let side = if watched() { 9 } else { 512 };
    for sides in [(2, 2), (2, side), (side, 2), (side, side)] {
        drawn.compare(&mut random, sides);
    }
    drawn.print("sides 2 and 512");
}

#[test]
fn drawn_calls_are_as_the_request_says_and_agree() {
    let mut random = Random::new(seed());
    let mut seen = q6::Seen::default();
    let count = cases(20_000);
    for case in 0..count {
        let most = if case % 50 == 0 && !watched() { 40 } else { 12 };
        let call = call(&mut random, most);
        seen.check(&call, &both_forecast(&call, random.below(16)));
    }
    println!("differential, forecast, calls: {count} cases");
    println!("request Q-6: {seen:?}");
    if as_many_as_usual() && !watched() {
        seen.expect(500);
        seen.expect_passes(15);
    }
}
