//! What request Q-1 says of marks: 0 for a line correct as found, 1 for an
//! accepted line that was rewritten anywhere; all else as before.
//!
//! Everything here takes what an implementation gives, so that the tests of
//! the library use it too.

pub mod before;

use reference::draw::{self, Damage, Outcome, Store, flip};
use reference::line::{SPARE, correct, places};
use reference::random::Random;
use reference::{LINE_BYTES, PROTECTED_PLACES};

/// What reading a line alone gives: the line, the mark and the answer.
pub type Reading = (Vec<u8>, u8, u32);

const HAMMING: [usize; 10] = [543, 544, 545, 546, 547, 548, 549, 550, 551, 552];

/// Any Hamming bits of a line hurt and nothing else: mark 1, and the line
/// comes back.
pub fn hamming_bits_alone(line: [u8; LINE_BYTES], read: impl Fn(&[u8]) -> Reading) {
    // Each of the ten alone, every pair, all ten, and all that is between.
    for bits in 1..1 << HAMMING.len() {
        let mut hurt = HAMMING.to_vec();
        hurt.retain(|place| bits >> (place - HAMMING[0]) & 1 == 1);
        let mut found = line;
        flip(&mut found, &hurt);
        assert_eq!(read(&found), (line.to_vec(), 1, 0), "places {hurt:?}");
    }
}

/// Any spare bits of a line set and nothing else: mark 0. They don't hide a
/// hurt Hamming bit.
pub fn spare_bits_alone(line: [u8; LINE_BYTES], read: impl Fn(&[u8]) -> Reading) {
    for bits in 1..1 << SPARE.len() {
        let mut found = line;
        for (i, (byte, bit)) in SPARE.into_iter().enumerate() {
            found[byte] |= u8::from(bits >> i & 1 == 1) << bit;
        }
        assert_eq!(read(&found), (line.to_vec(), 0, 0), "spare bits {bits:#b}");
        flip(&mut found, &[552]);
        assert_eq!(read(&found), (line.to_vec(), 1, 0), "spare bits {bits:#b}");
    }
}

/// A 2 by 2 store of zero lines, each hurt at its places, comes back whole with
/// these marks and passes.
fn expect_whole(
    repaired: &impl Fn(&Store) -> Outcome,
    hurt: [&[usize]; 4],
    marks: [u8; 4],
    passes: u64,
) {
    let mut store = Store::zero(2, 2);
    for (n, places) in hurt.into_iter().enumerate() {
        store.hurt(n, places);
    }
    let zero = Store::zero(2, 2);
    let whole = Outcome {
        answer: 0,
        passes,
        lines: zero.lines,
        marks: marks.to_vec(),
        row_table: zero.row_table,
        column_table: zero.column_table,
    };
    assert_eq!(repaired(&store), whole, "hurt at {hurt:?}");
}

/// Lines of a store hurt in Hamming bits alone: mark 1, no pass, answer 0.
pub fn hamming_bits_in_a_store(repaired: impl Fn(&Store) -> Outcome) {
    for place in HAMMING.chunks(1) {
        expect_whole(&repaired, [place, &[], &[], &[]], [1, 0, 0, 0], 0);
        expect_whole(&repaired, [&[], &[], &[], place], [0, 0, 0, 1], 0);
    }
    expect_whole(&repaired, [&HAMMING; 4], [1; 4], 0);
}

/// Lines mended by trial have mark 2 and rebuilt ones 3, also where their
/// Hamming bits were hurt.
pub fn trial_and_rebuilt(repaired: impl Fn(&Store) -> Outcome) {
    let expect = |hurt, marks| expect_whole(&repaired, hurt, marks, 1);
    // The mismatch is the places of both lines. Each line has a protected one
    // among them after whose flip it reads alone.
    expect([&[0, 543], &[2, 545], &[], &[]], [2, 2, 0, 0]);
    expect([&[0, 543, 544, 545], &[2, 3], &[], &[]], [2, 2, 0, 0]);
    // Line 1 has two damaged bits or more after any flip.
    expect([&[0, 543], &[100, 200, 552], &[], &[]], [2, 3, 0, 0]);
    // Line 0 is the only faulty one.
    let four = &[0, 1, 543, 552];
    expect([four, &[], &[], &[]], [3, 0, 0, 0]);
    expect([four, &[550], &HAMMING, &[9]], [3, 1, 1, 1]);
}

/// Lines hurt at one place: the mark that each had before the request, and the
/// one that it has now.
pub fn marks_then_and_now(repaired: impl Fn(&Store) -> Outcome) {
    for (place, then, now) in [(0, 1, 1), (542, 1, 1), (543, 0, 1)] {
        let mut store = Store::zero(2, 2);
        store.hurt(0, &[place]);
        let marks = |mark| [mark, 0, 0, 0];
        assert_eq!(before::repaired(&store).marks, marks(then), "place {place}");
        assert_eq!(repaired(&store).marks, marks(now), "place {place}");
    }
}

/// A 2 by 2 store of zero lines, two of them hurt in Hamming bits alone, and
/// its report: both count under `alone`.
pub fn report() -> (Store, &'static str) {
    let mut store = Store::zero(2, 2);
    store.hurt(0, &[543]);
    store.hurt(3, &HAMMING);
    let report = "store 2 2\nclean 2\nalone 2\ntrial 0\nrebuilt 0\nfaulty 0\npasses 0\nanswer 0\n";
    (store, report)
}

/// A line to be read: whole, hurt in Hamming bits alone or beside one more
/// place, or hurt anywhere; often with spare bits set.
pub fn drawn_line(random: &mut Random) -> [u8; LINE_BYTES] {
    let mut line = draw::correct_line(random);
    let hurt = match random.below(4) {
        0 => vec![],
        1 => draw::hamming_places(random),
        2 => [draw::hamming_places(random), vec![draw::place(random)]].concat(),
        _ => {
            let count = random.below(5);
            draw::places(random, count)
        }
    };
    flip(&mut line, &hurt);
    draw::set_spare_bits(random, &mut line, 2);
    line
}

/// A store to be repaired: hurt in any way, and often in Hamming bits too.
pub fn drawn_store(random: &mut Random, most: usize) -> Store {
    let mut store = draw::hurt_store(random, most);
    if random.once_in(4) {
        draw::hurt(random, &mut store, Damage::HammingBits);
    }
    store
}

/// Mark 0 exactly where the line found is correct, 1 exactly where it was
/// accepted and some place of it was rewritten, 4 exactly where it is faulty.
pub fn check_line(found: &[u8], (read, mark, answer): &Reading) {
    let (found, read) = (places(found), places(read));
    let accepted = *answer == 0;
    assert_eq!(accepted, correct(&read));
    assert_eq!(*mark == 0, correct(&found));
    assert_eq!(*mark == 1, accepted && read != found);
    assert_eq!(*mark == 4, !accepted);
}

/// The marks of a repair by the same words; lines, tables, passes, answer and
/// the marks from 2 on as before. Gives how many marks 0 have become 1.
pub fn check_store(store: &Store, given: &Outcome) -> usize {
    let before = before::repaired(store);
    assert_eq!((given.answer, given.passes), (before.answer, before.passes));
    assert!(given.lines == before.lines);
    assert!(given.row_table == before.row_table);
    assert!(given.column_table == before.column_table);
    let mut became = 0;
    for (n, out) in given.lines.chunks_exact(LINE_BYTES).enumerate() {
        let (now, then) = (given.marks[n], before.marks[n]);
        let (found, out) = (places(store.line(n)), places(out));
        assert_eq!(now == 0, correct(&found));
        // Before, 0 and 1 were the marks of the lines accepted alone.
        assert_eq!(now == 1, then <= 1 && out != found);
        if now != then {
            assert_eq!((then, now), (0, 1));
            assert!(found[..PROTECTED_PLACES] == out[..PROTECTED_PLACES]);
            became += 1;
        }
    }
    became
}
