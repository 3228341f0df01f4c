//! Wear reports as request Q-5 words them, on both implementations through C's
//! functions.

#[path = "../../../reference/tests/q5/mod.rs"]
pub mod q5;

use library_tests::wear::{add, order};
use library_tests::{Interface, as_many_as_usual, both, cases, seed};
use reference::random::Random;

/// Additions on an implementation, over guarded buffers.
fn adds(on: &dyn Interface) -> impl Fn(&[u64], &[u8], u32) -> q5::Added {
    move |wear, marks, answer| add(on, wear, (marks, answer), 3)
}

/// Comparisons likewise.
fn compares(on: &dyn Interface) -> impl Fn(&[u64], &[u64]) -> q5::Compared {
    move |a, b| order(on, a, b, 9)
}

#[test]
fn additions_worked_out_by_hand() {
    for on in both() {
        q5::expect_additions(&q5::cases::taken(), adds(on));
        q5::expect_additions(&q5::cases::longest(), adds(on));
        q5::expect_additions(&q5::onto_whole_reports(), adds(on));
        q5::expect_tour(adds(on));
    }
}

#[test]
fn additions_that_are_refused() {
    for on in both() {
        q5::expect_additions(&q5::cases::refused(), adds(on));
        q5::expect_additions(&q5::onto_broken_reports(), adds(on));
    }
}

#[test]
fn shares_compared_by_hand() {
    for on in both() {
        q5::expect_shares(&q5::cases::plain_shares(), compares(on));
        q5::expect_shares(&q5::cases::near_shares(), compares(on));
        q5::expect_nothing_else_counts(compares(on));
    }
}

#[test]
fn comparisons_that_are_refused() {
    for on in both() {
        q5::expect_refused_comparisons(compares(on));
    }
}

#[test]
fn drawn_additions_and_comparisons_are_as_the_request_says() {
    let mut random = Random::new(seed());
    for on in both() {
        let mut seen = q5::Seen::default();
        for _ in 0..cases(5_000) {
            seen.check_addition(&mut random, adds(on));
            seen.check_comparison(&mut random, compares(on));
        }
        println!("request Q-5, {}: {seen:?}", on.name());
        if as_many_as_usual() {
            seen.expect(50);
        }
    }
}

#[test]
fn shares_are_in_order() {
    let mut random = Random::new(seed());
    for on in both() {
        let reports = q5::many_reports(&mut random, 40);
        let equal = q5::expect_order(&reports, compares(on));
        assert!(equal > reports.len(), "some are equal to others");
    }
}
