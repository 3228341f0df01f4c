//! The single reading in the paper's order, as request Q-7 words it: the library
//! gives its line and mark, where it reads a line alone and in the first reading of
//! a repair.

#[path = "../../../reference/tests/q7/mod.rs"]
mod q7;

use library_tests::{Library, as_many_as_usual, both, cases, seed, watched};
use q7::{Bytes, Seen, lines};
use reference::random::Random;

use crate::samples::{read, repaired};

/// Of many cases a memory checker is shown every 29th.
fn stride() -> usize {
    if watched() { 29 } else { 1 }
}

/// The library reads these lines as in the paper's order; gives how often each kind
/// of reading came up.
fn check(lines: impl Iterator<Item = Bytes>) -> Seen {
    let mut seen = Seen::default();
    seen.check(lines.step_by(stride()), |line| read(&Library, line));
    println!("request Q-7: {seen:?}");
    seen
}

/// The line of zeros and other written ones.
fn written() -> impl Iterator<Item = Bytes> {
    lines::written(&mut Random::new(seed())).into_iter()
}

#[test]
fn readings_worked_out_by_hand() {
    let hurt = written().flat_map(lines::by_hand);
    for (found, due) in hurt.chain([lines::all_ones()]) {
        for on in both() {
            assert_eq!(read(on, &found), due, "{}: {found:?}", on.name());
        }
    }
}

#[test]
fn every_place_and_every_two_places_flipped() {
    check(written().flat_map(lines::every_place));
    // The line of zeros and the last one.
    for line in written().step_by(5) {
        let seen = check(lines::every_pair(line));
        // Of all pairs no count is open: the positions alone say how each reads.
        if !watched() {
            assert_eq!(seen.counts(), q7::counts_of_pairs());
        }
    }
}

#[test]
fn every_syndrome() {
    let beside = |line| {
        let hurt: [&[usize]; 5] = [&[], &[0], &[542], &[511, 512], &[0, 1, 2, 3, 4]];
        hurt.into_iter()
            .flat_map(move |places| lines::every_syndrome(line, places))
    };
    let seen = check(written().flat_map(beside));
    if !watched() {
        seen.expect(6);
    }
}

#[test]
fn drawn_lines() {
    let mut random = Random::new(seed());
    let seen = check((0..cases(60_000)).map(|_| lines::drawn(&mut random)));
    if as_many_as_usual() && !watched() {
        seen.expect(3_000);
    }
}

#[test]
fn first_reading_of_a_store() {
    let mut random = Random::new(seed());
    let mut seen = Seen::default();
    let most = if watched() { 4 } else { 20 };
    let in_order = written().flat_map(lines::stores_in_order).step_by(stride());
    for store in in_order {
        seen.check_store(&store, |store| repaired(&Library, store));
    }
    for _ in 0..cases(400) {
        let store = lines::drawn_store(&mut random, most);
        seen.check_store(&store, |store| repaired(&Library, store));
    }
    println!("request Q-7: lines of stores {seen:?}");
    if as_many_as_usual() {
        seen.expect(100);
    }
}

#[test]
fn first_reading_of_parity_lines() {
    let mut random = Random::new(seed());
    let mut seen = Seen::default();
    for _ in 0..cases(4_000) {
        let parity = [(); 4].map(|()| lines::drawn(&mut random));
        seen.check_parity(&parity, |store| repaired(&Library, store));
    }
    println!("request Q-7: parity lines {seen:?}");
    if as_many_as_usual() {
        seen.expect(600);
    }
}
