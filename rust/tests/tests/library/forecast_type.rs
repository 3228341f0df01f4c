//! The crate's forecast from a list of line numbers, over C's function.

use library_tests::forecast::forecast as guarded;
use library_tests::{Library, as_many_as_usual, cases, seed, watched};
use reference::draw;
use reference::draw::forecast::{Call, Given, call_on, pattern};
use reference::random::Random;
use sudoku::{Forecast, Mark, Refusal, Repaired, Store, forecast};

use crate::crate_over_c::store_of;
use crate::demands::has_unusable;
use crate::forecast::q6;

/// The numbers of the faulty lines of a pattern, rising.
fn numbers(faulty: &[u8]) -> Vec<usize> {
    (0..faulty.len()).filter(|&n| faulty[n] != 0).collect()
}

/// What the crate gives for a call with right lengths, from a list in which each
/// line stands twice, falling and rising.
fn by_list(call: &Call) -> Given {
    let rising = numbers(&call.faulty);
    let list: Vec<usize> = rising.iter().rev().chain(&rising).copied().collect();
    let given = forecast(call.rows, call.columns, &list).expect("right sides");
    Given {
        answer: 0,
        passes: given.passes,
        marks: given.marks.iter().map(|mark| mark.number()).collect(),
    }
}

#[test]
fn patterns_worked_out_by_hand() {
    q6::expect_cases(&q6::cases::all(), by_list);
    let side = if watched() { 6 } else { 64 };
    q6::expect_cases(&q6::cases::large(side), by_list);
}

/// The lost lines are those with mark 4, rising.
fn expect_lost(given: &Forecast) {
    let lost = given.lost();
    assert!(lost.is_sorted_by(|a, b| a < b));
    for (n, &mark) in given.marks.iter().enumerate() {
        assert_eq!(lost.contains(&n), mark == Mark::Faulty, "line {n}");
    }
    assert_eq!(given.saves_all(), lost.is_empty());
}

#[test]
fn lists_in_any_order() {
    let mut random = Random::new(seed());
    for _ in 0..cases(2_000) {
        let sides = draw::sides(&mut random, 12);
        let faulty = pattern(&mut random, sides);
        let mut list = numbers(&faulty);
        for _ in 0..random.below(list.len() + 1) {
            list.push(list[random.below(list.len())]);
        }
        random.shuffle(&mut list);
        let given = forecast(sides.0, sides.1, &list).expect("right sides");
        let due = guarded(&Library, &call_on(&mut random, sides, faulty), 2);
        let due_marks = due.marks.into_iter().map(Mark::from_number);
        assert!(given.marks.iter().copied().eq(due_marks));
        assert_eq!(given.passes, due.passes);
        expect_lost(&given);
    }
}

/// The numbers of the lines that can't be read alone.
fn faulty_lines(store: &Store) -> Vec<usize> {
    let is_faulty = |&n: &usize| store.read(n).is_ok_and(|read| read.is_faulty());
    let faulty: Vec<usize> = (0..store.count()).filter(is_faulty).collect();
    assert_eq!(store.faulty(), faulty);
    faulty
}

/// The numbers of the lines that repair gives up.
fn given_up(repaired: &Repaired) -> Vec<usize> {
    let is_faulty = |&n: &usize| repaired.marks[n] == Mark::Faulty;
    let given_up: Vec<usize> = (0..repaired.marks.len()).filter(is_faulty).collect();
    assert!(repaired.lost().eq(given_up.iter().copied()));
    given_up
}

/// Stores with usable parity lines: of a list that names other lines besides the
/// faulty ones at least the same are lost, so that it foretells what is given up
/// too.
#[test]
fn no_caption_is_given_up_that_is_not_foretold() {
    let mut random = Random::new(seed());
    let (mut all_lost, mut all_given_up) = (0, 0);
    for _ in 0..cases(2_000) {
        let drawn = draw::hurt_store(&mut random, 6);
        if has_unusable(&drawn) {
            continue;
        }
        let store = store_of(&drawn);
        let mut list = faulty_lines(&store);
        let lost_of = |list: &[usize]| {
            let foretold = forecast(store.rows(), store.columns(), list);
            foretold.expect("lines of the store").lost()
        };
        let (lost, given_up) = (lost_of(&list), given_up(&store.repair()));
        assert!(given_up.iter().all(|n| lost.contains(n)));
        let more = random.between(1, 4);
        list.extend((0..more).map(|_| random.below(store.count())));
        let lost_of_more = lost_of(&list);
        assert!(lost.iter().all(|n| lost_of_more.contains(n)));
        all_lost += lost.len();
        all_given_up += given_up.len();
    }
    println!("request Q-6: {all_lost} lines lost by forecasts, {all_given_up} given up by repairs");
    assert!(!as_many_as_usual() || all_given_up < all_lost);
}

#[test]
fn bad_input_comes_back_as_a_refusal() {
    for sides in [(1, 2), (2, 1), (513, 2), (2, 513), (0, 0)] {
        assert_eq!(forecast(sides.0, sides.1, &[]), Err(Refusal::Sides));
        // The sides are tested first.
        assert_eq!(
            forecast(sides.0, sides.1, &[usize::MAX]),
            Err(Refusal::Sides)
        );
    }
    let huge = [(usize::MAX, usize::MAX), (1 << 63, 2), (1 << 32, 1 << 32)];
    for sides in huge {
        assert_eq!(forecast(sides.0, sides.1, &[0]), Err(Refusal::Sides));
    }
    for number in [6, 7, usize::MAX] {
        assert_eq!(forecast(2, 3, &[number]), Err(Refusal::Number));
        assert_eq!(forecast(2, 3, &[0, number, 1]), Err(Refusal::Number));
    }
    let last = forecast(2, 3, &[5]).expect("a line");
    assert_eq!(last.marks[5], Mark::Rebuilt);
    assert_eq!((last.passes, last.lost()), (1, vec![]));
    let none = forecast(512, 512, &[]).expect("right sides");
    assert!(none.marks.len() == 512 * 512 && none.saves_all());
    assert!(none.marks.iter().all(|&mark| mark == Mark::Clean));
    assert_eq!(none.passes, 0);
}
