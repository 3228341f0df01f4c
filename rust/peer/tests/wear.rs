//! Wear of a tour in the peer: its count of marks, and its comparison as request
//! Q-5 words it.

// Additions are the library's and the reference's alone.
#[allow(dead_code)]
#[path = "../../reference/tests/q5/mod.rs"]
mod q5;

use peer::wear::{compare, count};
use q5::cases;
use reference::draw::wear as draw;
use reference::random::Random;
use reference::wear::wear_of;

#[test]
fn comparisons_worked_out_by_hand() {
    for shares in [cases::plain_shares(), cases::near_shares()] {
        q5::expect_shares(&shares, compare);
    }
    q5::expect_nothing_else_counts(compare);
    q5::expect_refused_comparisons(compare);
}

#[test]
fn comparisons_agree() {
    let mut random = Random::new(55);
    let mut answers = [0usize; 16];
    for _ in 0..20_000 {
        let whole = draw::report(&mut random);
        let near = draw::near(&mut random, &whole);
        assert_eq!(
            compare(&whole, &near),
            reference::wear::compare(&whole, &near)
        );
        let (a, b) = (draw::numbers(&mut random), draw::numbers(&mut random));
        let given = compare(&a, &b);
        assert_eq!(given, reference::wear::compare(&a, &b), "{a:?}, {b:?}");
        answers[given.0 as usize] += 1;
    }
    assert!([0, 7, 15].iter().all(|&answer| answers[answer] > 500));
}

#[test]
fn counts_agree() {
    let mut random = Random::new(56);
    let lengths = (4..1_000).chain([4_096, 65_535, 262_144, 4_194_304]);
    for length in lengths {
        let mut marks = vec![0; length];
        marks.fill_with(|| random.below(5) as u8);
        assert_eq!(count(&marks), wear_of(&[(&marks, 0)])[2..7], "{length}");
    }
}

#[test]
fn counts_of_equal_marks_and_of_few() {
    assert_eq!(count(&[]), [0; 5]);
    assert_eq!(count(&[3, 0, 3]), [1, 0, 0, 2, 0]);
    for (mark, length) in (0..5).flat_map(|mark| [1, 191, 192, 193, 400].map(|n| (mark, n))) {
        let mut due = [0; 5];
        due[usize::from(mark)] = length as u64;
        assert_eq!(count(&vec![mark; length]), due, "{length} of {mark}");
    }
}

#[test]
fn bytes_that_are_no_marks_are_not_counted() {
    let bytes: Vec<u8> = (0..=255).cycle().take(256 * 9).collect();
    assert_eq!(count(&bytes), [9; 5]);
    assert_eq!(count(&[5; 1_000]), [0; 5]);
}
