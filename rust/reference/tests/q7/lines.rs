//! Lines to be read, for request Q-7.

use reference::draw::{self, flip};
use reference::line;
use reference::random::Random;
use reference::{DATA_BYTES, DATA_PLACES, HAMMING_PLACES, LINE_BYTES, PLACES, PROTECTED_PLACES};

use super::{Bytes, Kind, Reading, syndrome};

/// Places flipped in a written line, and how it then reads. Place 0 has position
/// 3, place 1 has 5, then 6, 7, 9; place 512 has 523, place 542 has 553; Hamming bit
/// k, which is place 543+k, has 2^k.
const BY_HAND: [(&[usize], Kind); 26] = [
    (&[], Kind::Clean),
    // Hamming bits alone, whatever the syndrome names: a Hamming place, or place 0
    // (3), or place 542 (553 = 1 + 8 + 32 + 512), or none (1023).
    (&[543], Kind::HammingHurt),
    (&[552], Kind::HammingHurt),
    (&[543, 544], Kind::HammingHurt),
    (&[543, 546, 548, 552], Kind::HammingHurt),
    (
        &[543, 544, 545, 546, 547, 548, 549, 550, 551, 552],
        Kind::HammingHurt,
    ),
    // One place of the data or of the CRC.
    (&[0], Kind::Corrected),
    (&[511], Kind::Corrected),
    (&[512], Kind::Corrected),
    (&[542], Kind::Corrected),
    // 3 and 5 make 6: place 2. 42 and 512 make 554, 41 and 512 make 553.
    (&[0, 1], Kind::ProtectedNamed),
    (&[35, 552], Kind::NoneNamed),
    (&[34, 552], Kind::ProtectedNamed),
    // Data and data, CRC and CRC, data and Hamming bit, that leave one Hamming bit:
    // 6 and 7 make 1, 552 and 553 make 1, 3 and 1 make 2, 3 and 2 make 1.
    (&[2, 3], Kind::HammingNamed),
    (&[541, 542], Kind::HammingNamed),
    (&[0, 543], Kind::HammingNamed),
    (&[0, 544], Kind::HammingNamed),
    // 523 and 524 make 7: two places of the CRC name place 3. So 7 and 523 make 524:
    // place 3 and one of the CRC name another of the CRC. 553 and 512 make 41: place 34,
    // since of the numbers to 41 six are powers of two and 35 the positions of 0 to 34.
    (&[512, 513], Kind::ProtectedNamed),
    (&[3, 512], Kind::ProtectedNamed),
    (&[542, 552], Kind::ProtectedNamed),
    // All that is hurt adds up to 0: 3, 5 and 6; 3, 1 and 2; 523, 524 and 7; 553, 1,
    // 8, 32 and 512.
    (&[0, 1, 2], Kind::NoneNamed),
    (&[0, 543, 544], Kind::NoneNamed),
    (&[3, 512, 513], Kind::NoneNamed),
    (&[542, 543, 546, 548, 552], Kind::NoneNamed),
    // 3, 5 and 7 make 1; 3, 5 and 9 make 15, the position of place 10.
    (&[0, 1, 3], Kind::HammingNamed),
    (&[0, 1, 4], Kind::ProtectedNamed),
];

/// The cases worked out by hand on this written line, with what reading gives.
pub fn by_hand(line: Bytes) -> impl Iterator<Item = (Bytes, Reading)> {
    let hurt = move |(places, kind): (&[usize], Kind)| {
        let found = hurt(line, places);
        (found, kind.reading(&found, &line))
    };
    BY_HAND.into_iter().map(hurt)
}

/// Every bit set, spare bits too. The 543 protected places are an odd number, so x+1
/// doesn't divide their word. The numbers from 1 to 553 make 1, so a Hamming place is
/// named: the line is faulty.
pub fn all_ones() -> (Bytes, Reading) {
    let found = [0xFF; LINE_BYTES];
    (found, Kind::HammingNamed.reading(&found, &found))
}

/// The line of zeros, one with a single data place set, one with all, and three of
/// drawn data.
pub fn written(random: &mut Random) -> [Bytes; 6] {
    let mut data = [[0; DATA_BYTES]; 6];
    flip(&mut data[1], &[random.below(DATA_PLACES)]);
    data[2].fill(0xFF);
    data[3..].iter_mut().for_each(|data| random.fill(data));
    data.map(|data| line::bytes(&line::written(&data)))
}

/// The line with these places flipped.
pub fn hurt(mut line: Bytes, places: &[usize]) -> Bytes {
    flip(&mut line, places);
    line
}

/// The line with each place flipped.
pub fn every_place(line: Bytes) -> impl Iterator<Item = Bytes> {
    (0..PLACES).map(move |place| hurt(line, &[place]))
}

/// The line with every two places flipped.
pub fn every_pair(line: Bytes) -> impl Iterator<Item = Bytes> {
    let pairs = (0..PLACES).flat_map(|second| (0..second).map(move |first| [first, second]));
    pairs.map(move |pair| hurt(line, &pair))
}

/// The line with its Hamming bits changed until the syndrome is this number.
pub fn with_syndrome(mut line: Bytes, wanted: usize) -> Bytes {
    let changed = syndrome(&line::places(&line)) ^ wanted;
    for k in (0..HAMMING_PLACES).filter(|k| changed >> k & 1 == 1) {
        flip(&mut line, &[PROTECTED_PLACES + k]);
    }
    line
}

/// The line hurt at these protected places, with each of the 1024 syndromes.
pub fn every_syndrome(line: Bytes, protected: &[usize]) -> impl Iterator<Item = Bytes> {
    let found = hurt(line, protected);
    (0..1 << HAMMING_PLACES).map(move |wanted| with_syndrome(found, wanted))
}

/// One to five different protected places, rising.
fn protected_places(random: &mut Random) -> Vec<usize> {
    let count = random.between(1, 5);
    let mut places: Vec<usize> = (0..count).map(|_| random.below(PROTECTED_PLACES)).collect();
    places.sort_unstable();
    places.dedup();
    places
}

/// A drawn line: whole; hurt at one place, at two to eight, or in Hamming bits alone;
/// hurt at protected places, while the syndrome names a Hamming place or is any number;
/// or any bytes. Often with spare bits set.
pub fn drawn(random: &mut Random) -> Bytes {
    let line = draw::correct_line(random);
    let protected = hurt(line, &protected_places(random));
    let mut found = match random.below(8) {
        0 => line,
        1 => hurt(line, &[draw::place(random)]),
        2 | 3 => {
            let count = random.between(2, 8);
            hurt(line, &draw::places(random, count))
        }
        4 => hurt(line, &draw::hamming_places(random)),
        5 => with_syndrome(protected, 1 << random.below(HAMMING_PLACES)),
        6 => with_syndrome(protected, random.below(1 << HAMMING_PLACES)),
        _ => any_bytes(random),
    };
    draw::set_spare_bits(random, &mut found, 2);
    found
}

/// Any 70 bytes.
fn any_bytes(random: &mut Random) -> Bytes {
    let mut bytes = [0; LINE_BYTES];
    random.fill(&mut bytes);
    bytes
}

/// The sides of a store and its lines.
pub type Lines = ((usize, usize), Vec<Bytes>);

/// Line n hurt at place n; line n with syndrome n, whole but for its Hamming bits or
/// hurt at one more place.
pub fn stores_in_order(line: Bytes) -> [Lines; 3] {
    [
        ((7, 79), every_place(line).collect()),
        ((32, 32), every_syndrome(line, &[]).collect()),
        ((32, 32), every_syndrome(line, &[9]).collect()),
    ]
}

/// A store of drawn lines. In one of four each is hurt at a single place.
pub fn drawn_store(random: &mut Random, most: usize) -> Lines {
    let (rows, columns) = draw::sides(random, most);
    let single = random.once_in(4);
    let line = |_| {
        if single {
            hurt(draw::correct_line(random), &[draw::place(random)])
        } else {
            drawn(random)
        }
    };
    ((rows, columns), (0..rows * columns).map(line).collect())
}
