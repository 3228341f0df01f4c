//! The marks as request Q-1 words them, on both implementations.

#[path = "../../../reference/tests/q1/mod.rs"]
pub mod q1;

use library_tests::{both, cases, seed};
use reference::LINE_BYTES;
use reference::draw;
use reference::random::Random;

use crate::samples::{read, repaired};

/// The line of zeros and a drawn one.
fn lines() -> [[u8; LINE_BYTES]; 2] {
    [
        [0; LINE_BYTES],
        draw::correct_line(&mut Random::new(seed())),
    ]
}

#[test]
fn hamming_bits_hurt_alone_give_mark_1() {
    for on in both() {
        for line in lines() {
            q1::hamming_bits_alone(line, |found| read(on, found));
        }
    }
}

#[test]
fn spare_bits_alone_give_mark_0() {
    for on in both() {
        for line in lines() {
            q1::spare_bits_alone(line, |found| read(on, found));
        }
    }
}

#[test]
fn hamming_bits_hurt_in_a_store_give_mark_1() {
    for on in both() {
        q1::hamming_bits_in_a_store(|store| repaired(on, store));
    }
}

#[test]
fn marks_of_lines_hurt_at_one_place_then_and_now() {
    for on in both() {
        q1::marks_then_and_now(|store| repaired(on, store));
    }
}

#[test]
fn trial_and_rebuilt_lines_keep_their_marks() {
    for on in both() {
        q1::trial_and_rebuilt(|store| repaired(on, store));
    }
}

#[test]
fn drawn_lines_are_marked_as_the_request_says() {
    let mut random = Random::new(seed());
    for _ in 0..cases(20_000) {
        let found = q1::drawn_line(&mut random);
        for on in both() {
            q1::check_line(&found, &read(on, &found));
        }
    }
}

#[test]
fn drawn_stores_are_marked_as_the_request_says_and_all_else_is_as_before() {
    let mut random = Random::new(seed());
    let mut became = 0;
    for _ in 0..cases(3_000) {
        let store = q1::drawn_store(&mut random, 6);
        for on in both() {
            became += q1::check_store(&store, &repaired(on, &store));
        }
    }
    println!("request Q-1: {became} marks 0 have become 1");
    assert!(became > 0);
}
