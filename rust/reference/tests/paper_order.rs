//! The single reading in the paper's order, as request Q-7 words it.

mod q7;

use q7::lines::{self, by_hand, every_pair, every_place, every_syndrome};
use q7::{Bytes, Reading, Seen};
use reference::line::{places, read_alone};
use reference::paper_order::read_in_order;
use reference::random::Random;
use reference::{LINE_BYTES, read_line};

/// The reading by divisibility, in bytes; in places the paper's order gives the same.
fn read(found: &[u8]) -> Reading {
    let line = places(found);
    assert!(read_in_order(&line) == read_alone(&line), "{found:?}");
    let mut out = vec![0xEE; LINE_BYTES];
    let given = read_line(found, &mut out);
    (out, given.mark, given.answer)
}

/// The line of zeros and other written ones.
fn written() -> [Bytes; 6] {
    lines::written(&mut Random::new(70))
}

#[test]
fn every_number_to_553_is_the_position_of_a_place() {
    let mut sorted = q7::positions().to_vec();
    sorted.sort_unstable();
    assert!(sorted.into_iter().eq(1..=553));
}

#[test]
fn readings_worked_out_by_hand() {
    let mut seen = Seen::default();
    for (found, due) in written().into_iter().flat_map(by_hand) {
        assert_eq!(read(&found), due, "{found:?}");
        seen.check([found], read);
    }
    let (found, due) = lines::all_ones();
    assert_eq!(read(&found), due);
    seen.check([found], read);
    println!("by hand: {seen:?}");
    // Six written lines, each in 26 cases, and the line of ones.
    assert_eq!(seen.counts(), [6, 30, 24, 36, 31, 30]);
}

#[test]
fn every_place_flipped() {
    let mut seen = Seen::default();
    seen.check(written().into_iter().flat_map(every_place), read);
    println!("every place: {seen:?}");
    // Six written lines, and of each 543 protected places and ten Hamming bits.
    assert_eq!(seen.counts(), [0, 60, 3_258, 0, 0, 0]);
}

#[test]
fn every_two_places_flipped() {
    let mut seen = Seen::default();
    seen.check(every_pair(written()[5]), read);
    println!("every two places: {seen:?}");
    // These are all pairs, and the positions alone say how each reads: no count is open.
    assert_eq!(seen.counts(), q7::counts_of_pairs());
}

/// These lines hurt at these protected places, each with all 1024 syndromes: so many
/// readings of each kind for each line. Of the syndromes 543 name a protected place,
/// 10 a Hamming place and 471 none.
fn expect_syndromes(lines: &[Bytes], protected: &[usize], of_each: [usize; 6]) {
    let mut seen = Seen::default();
    for &line in lines {
        seen.check(every_syndrome(line, protected), read);
    }
    println!("hurt at {protected:?}, every syndrome: {seen:?}");
    let due = of_each.map(|count| count * lines.len());
    assert_eq!(seen.counts(), due, "places {protected:?}");
}

#[test]
fn hamming_bits_hurt_alone() {
    // Syndrome 0 is that of the whole line; of the others it doesn't matter what they name.
    expect_syndromes(&written(), &[], [1, 1_023, 0, 0, 0, 0]);
}

#[test]
fn every_syndrome_beside_hurt_places() {
    let lines = &written()[2..4];
    // One syndrome names the place that is hurt.
    for place in [0, 255, 511, 512, 527, 542] {
        expect_syndromes(lines, &[place], [0, 0, 1, 542, 10, 471]);
    }
    // None puts two to five places right.
    for places in [&[0, 1][..], &[511, 512], &[7, 100, 542], &[0, 1, 2, 3, 4]] {
        expect_syndromes(lines, places, [0, 0, 0, 543, 10, 471]);
    }
}

#[test]
fn drawn_lines() {
    let mut random = Random::new(71);
    let mut seen = Seen::default();
    seen.check((0..40_000).map(|_| lines::drawn(&mut random)), read);
    println!("drawn lines: {seen:?}");
    seen.expect(2_000);
}

#[test]
fn first_reading_of_a_store() {
    let mut random = Random::new(72);
    let mut seen = Seen::default();
    let in_order = written().into_iter().flat_map(lines::stores_in_order);
    let drawn = (0..300).map(|_| lines::drawn_store(&mut random, 20));
    for store in in_order.chain(drawn) {
        seen.check_store(&store, |store| store.repaired(0xEE));
    }
    println!("lines of stores: {seen:?}");
    seen.expect(300);
}

#[test]
fn first_reading_of_parity_lines() {
    let mut random = Random::new(73);
    let mut seen = Seen::default();
    for _ in 0..2_000 {
        let parity = [(); 4].map(|()| lines::drawn(&mut random));
        seen.check_parity(&parity, |store| store.repaired(0xEE));
    }
    println!("parity lines: {seen:?}");
    seen.expect(300);
}
