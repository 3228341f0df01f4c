//! The marks as request Q-1 words them.

// One part of it serves request Q-4 alone.
#[allow(dead_code)]
mod q1;

use q1::Reading;
use reference::draw;
use reference::random::Random;
use reference::{LINE_BYTES, read_line, storecheck};

fn read(line: &[u8]) -> Reading {
    let mut out = vec![0xEE; LINE_BYTES];
    let given = read_line(line, &mut out);
    (out, given.mark, given.answer)
}

/// The line of zeros and some drawn ones.
fn lines() -> Vec<[u8; LINE_BYTES]> {
    let mut random = Random::new(543);
    let mut lines = vec![[0; LINE_BYTES]];
    lines.extend((0..5).map(|_| draw::correct_line(&mut random)));
    lines
}

#[test]
fn hamming_bits_hurt_alone_give_mark_1() {
    for line in lines() {
        q1::hamming_bits_alone(line, read);
    }
}

#[test]
fn spare_bits_alone_give_mark_0() {
    for line in lines() {
        q1::spare_bits_alone(line, read);
    }
}

#[test]
fn hamming_bits_hurt_in_a_store_give_mark_1() {
    q1::hamming_bits_in_a_store(|store| store.repaired(0xEE));
}

#[test]
fn marks_of_lines_hurt_at_one_place_then_and_now() {
    q1::marks_then_and_now(|store| store.repaired(0xEE));
}

#[test]
fn trial_and_rebuilt_lines_keep_their_marks() {
    q1::trial_and_rebuilt(|store| store.repaired(0xEE));
}

#[test]
fn hamming_bits_count_under_alone_in_a_report() {
    let (store, report) = q1::report();
    assert_eq!(storecheck(&store.file()), report);
}

#[test]
fn drawn_lines_are_marked_as_the_request_says() {
    let mut random = Random::new(17);
    let mut marks = [0; 5];
    for _ in 0..30_000 {
        let found = q1::drawn_line(&mut random);
        let reading = read(&found);
        q1::check_line(&found, &reading);
        marks[usize::from(reading.1)] += 1;
    }
    println!("lines by mark {marks:?}");
    assert!([0, 1, 4].into_iter().all(|mark| marks[mark] > 5_000));
}

#[test]
fn drawn_stores_are_marked_as_the_request_says_and_all_else_is_as_before() {
    let mut random = Random::new(18);
    let mut became = 0;
    for _ in 0..4_000 {
        let store = q1::drawn_store(&mut random, 7);
        became += q1::check_store(&store, &store.repaired(0xEE));
    }
    println!("{became} marks 0 have become 1");
    assert!(became > 1_000);
}
