//! Ways to spoil a file.

use reference::draw;
use reference::random::Random;

use crate::support::shows::play;

/// A small store's file, hurt as stores are, and then often spoilt as files are.
pub fn store_file(random: &mut Random) -> Vec<u8> {
    let sides = draw::sides(random, 5);
    let mut store = if random.once_in(2) {
        play(sides.0, sides.1)
    } else {
        draw::Store::random(random, sides.0, sides.1)
    };
    if random.once_in(2) {
        let way = draw::Damage::any(random);
        draw::hurt(random, &mut store, way);
    }
    let mut file = store.file();
    match random.below(12) {
        0 => {}
        1..=4 => flip(random, &mut file, 28),
        5 => header_number(random, &mut file),
        6 => swap_lines(random, &mut file),
        7 => file = draw::store_file(random),
        8 => file.truncate(random.below(60)),
        _ => spoil(random, &mut file),
    }
    file
}

/// Spoils bytes of any kind: flips, cuts, inserts, doubles, moves or replaces.
pub fn spoil(random: &mut Random, bytes: &mut Vec<u8>) {
    match random.below(8) {
        0 => flip(random, bytes, 0),
        1 => bytes.truncate(random.below(bytes.len() + 1)),
        2 => drop(bytes.drain(part(random, bytes.len()))),
        3 => insert(random, bytes),
        4 => {
            let again = bytes[part(random, bytes.len())].to_vec();
            let at = random.below(bytes.len() + 1);
            bytes.splice(at..at, again);
        }
        5 => {
            let middle = random.below(bytes.len() + 1);
            bytes.rotate_left(middle);
        }
        6 => {
            let part = part(random, bytes.len());
            random.fill(&mut bytes[part]);
        }
        _ => {
            let length = random.below(800);
            bytes.resize(length, 0);
            random.fill(bytes);
        }
    }
}

/// Turns over some bits from this byte on.
fn flip(random: &mut Random, bytes: &mut [u8], start: usize) {
    let Some(bytes) = bytes.get_mut(start..).filter(|bytes| !bytes.is_empty()) else {
        return;
    };
    for _ in 0..random.between(1, 12) {
        let bit = random.below(8 * bytes.len());
        bytes[bit / 8] ^= 1 << (bit % 8);
    }
}

/// Puts some drawn bytes between the others: any, or ones that mean something.
fn insert(random: &mut Random, bytes: &mut Vec<u8>) {
    let mut more = vec![0; random.between(1, 90)];
    if random.once_in(2) {
        random.fill(&mut more);
    }
    let words: [&[u8]; 9] = [
        b"\n",
        b"\r",
        b"\t",
        b"\0",
        b"\xFF",
        b" --> ",
        b"\x1B[2J",
        b"\xEF\xBB\xBF",
        "’".as_bytes(),
    ];
    if random.once_in(2) {
        more = random.pick(&words).map_or(vec![], |word| word.to_vec());
    }
    let at = random.below(bytes.len() + 1);
    bytes.splice(at..at, more);
}

/// Alters one of the header's numbers.
fn header_number(random: &mut Random, file: &mut [u8]) {
    let sides = [0, 1, 2, 3, 4, 5, 6, 255, 256, 511, 512, 513, 65_535];
    if random.once_in(2) {
        let side: u16 = random.pick(&sides).copied().unwrap_or(0);
        let at = 2 * random.below(2);
        file[at..at + 2].copy_from_slice(&side.to_le_bytes());
    } else {
        let at = 4 + 4 * random.below(6);
        random.fill(&mut file[at..at + 4]);
    }
}

/// Swaps two lines or parity lines.
fn swap_lines(random: &mut Random, file: &mut [u8]) {
    let count = (file.len() - 28) / 70;
    let (a, b) = (random.below(count), random.below(count));
    for byte in 0..70 {
        file.swap(28 + 70 * a + byte, 28 + 70 * b + byte);
    }
}

/// A part of so many bytes.
fn part(random: &mut Random, length: usize) -> std::ops::Range<usize> {
    let start = random.below(length + 1);
    let end = start + random.below(length + 1 - start);
    start..end.min(start + 200)
}
