//! The code of one line, on nine 64-bit words.

use crate::{DATA_BYTES, LINE_BYTES, mark};

/// A line: eight words of data, then CRC (bits 0 to 30) and Hamming bits (32
/// to 41), every other bit 0.
pub type Words = [u64; 9];

/// A line of zeros.
pub const ZERO: Words = [0; 9];

/// The bits of the last word that are places.
const TAIL_PLACES: u64 = CRC_BITS as u64 | HAMMING_BITS << 32;
const CRC_BITS: u32 = (1 << 31) - 1;
const HAMMING_BITS: u64 = (1 << 10) - 1;

/// Protected places.
const PROTECTED: usize = 543;
/// All places.
const PLACES: usize = 553;

/// The generator's lower 31 coefficients, the highest in bit 0.
const GENERATOR: u32 = 0x71FB_3335_u32.reverse_bits() >> 1;

/// A remainder times x, the highest coefficient in bit 0.
const fn times_x(remainder: u32) -> u32 {
    (remainder >> 1) ^ (if remainder & 1 == 1 { GENERATOR } else { 0 })
}

/// Tables for sixteen bytes at a time: entry b of table t is the remainder of
/// byte b with t bytes after it.
static SLICES: [[u32; 256]; 16] = {
    let mut tables = [[0; 256]; 16];
    let mut byte = 0;
    while byte < 256 {
        let mut remainder = byte as u32;
        let mut table = 0;
        while table < 16 {
            let mut bit = 0;
            while bit < 8 {
                remainder = times_x(remainder);
                bit += 1;
            }
            tables[table][byte] = remainder;
            table += 1;
        }
        byte += 1;
    }
    tables
};

/// The remainder that each place alone leaves; 0 for Hamming bits.
static REMAINDERS: [u32; PLACES] = {
    let mut remainders = [0; PLACES];
    // Place 542 is x^0, which stands in bit 30.
    let mut remainder = 1 << 30;
    let mut place = PROTECTED;
    while place > 0 {
        place -= 1;
        remainders[place] = remainder;
        remainder = times_x(remainder);
    }
    remainders
};

/// The position of each place: of protected places by the rule, of Hamming bit
/// k 2^k.
static POSITIONS: [u16; PLACES] = {
    let mut positions = [0; PLACES];
    let mut position = 3u16;
    let mut place = 0;
    while place < PROTECTED {
        if !position.is_power_of_two() {
            positions[place] = position;
            place += 1;
        }
        position += 1;
    }
    while place < PLACES {
        positions[place] = 1 << (place - PROTECTED);
        place += 1;
    }
    positions
};

/// No place.
const NONE: u16 = u16::MAX;

/// The protected place that each syndrome names, or none.
static NAMED: [u16; 1024] = {
    let mut named = [NONE; 1024];
    let mut place = 0;
    while place < PROTECTED {
        named[POSITIONS[place] as usize] = place as u16;
        place += 1;
    }
    named
};

/// Parities of a byte's bits whose number has bit 0, 1 or 2.
static FOLD: [u8; 256] = {
    let mut table = [0; 256];
    let mut byte = 0;
    while byte < 256 {
        let bits = byte as u8;
        let odd = (bits & 0xAA).count_ones() & 1;
        let pairs = (bits & 0xCC).count_ones() & 1;
        let fours = (bits & 0xF0).count_ones() & 1;
        table[byte] = (odd | pairs << 1 | fours << 2) as u8;
        byte += 1;
    }
    table
};

/// The line written for 64 data bytes.
#[inline]
pub fn written(data: &[u8; DATA_BYTES]) -> Words {
    let mut words = ZERO;
    for (word, bytes) in words.iter_mut().zip(data.as_chunks().0) {
        *word = u64::from_le_bytes(*bytes);
    }
    let crc = crc(data_of(&words));
    words[8] = u64::from(crc) | hamming_bits(data_of(&words), crc) << 32;
    words
}

/// The words of a line; spare bits become 0.
#[inline]
pub fn load(line: &[u8; LINE_BYTES]) -> Words {
    let mut words = ZERO;
    for (word, bytes) in words.iter_mut().zip(line.as_chunks().0) {
        *word = u64::from_le_bytes(*bytes);
    }
    // The last six bytes come with the two before them, in one go.
    let last = line.last_chunk().copied().unwrap_or_default();
    words[8] = u64::from_le_bytes(last) >> 16 & TAIL_PLACES;
    words
}

/// The bytes of a line.
#[inline]
pub fn store(words: &Words, line: &mut [u8; LINE_BYTES]) {
    for (bytes, word) in line.as_chunks_mut().0.iter_mut().zip(words) {
        *bytes = word.to_le_bytes();
    }
    if let Some(last) = line.last_chunk_mut() {
        *last = (words[7] >> 48 | words[8] << 16).to_le_bytes();
    }
}

/// Adds a line to a sum.
#[inline]
pub fn add(sum: &mut Words, line: &Words) {
    for (sum, word) in sum.iter_mut().zip(line) {
        *sum ^= word;
    }
}

/// The CRC of the data, place 512 in bit 0.
#[inline(always)]
pub fn crc(data: &[u64; 8]) -> u32 {
    let mut crc = 0;
    for pair in data.as_chunks::<2>().0 {
        let first = (pair[0] ^ u64::from(crc)).to_le_bytes();
        let second = pair[1].to_le_bytes();
        crc = 0;
        for i in 0..8 {
            crc ^= SLICES[15 - i][usize::from(first[i])];
            crc ^= SLICES[7 - i][usize::from(second[i])];
        }
    }
    crc
}

/// The Hamming bits of data and CRC, bit k in bit k.
///
/// Position p of a place is the place plus the number of powers of two up to
/// p, so moving whole words by that many bits puts every place at its
/// position: word q then has positions 64q to 64q+63. Bits 0 to 5 of the
/// positions are bit numbers in a word, bits 6 to 9 are word numbers.
#[inline]
pub fn hamming_bits(data: &[u64; 8], crc: u32) -> u64 {
    let [d0, d1, d2, d3, d4, d5, d6, d7] = *data;
    let crc = u64::from(crc);
    // Places 0; 1 to 3; 4 to 10; 11 to 25; 26 to 56.
    let p0 = (d0 & 0x1) << 3
        | (d0 & 0xE) << 4
        | (d0 & 0x7F0) << 5
        | (d0 & 0x3FF_F800) << 6
        | (d0 & 0x01FF_FFFF_FC00_0000) << 7;
    let p1 = (d0 >> 56 | d1 << 8) & !1;
    let p2 = (d1 >> 55 | d2 << 9) & !1;
    let p3 = d2 >> 55 | d3 << 9;
    let p4 = (d3 >> 54 | d4 << 10) & !1;
    let p5 = d4 >> 54 | d5 << 10;
    let p6 = d5 >> 54 | d6 << 10;
    let p7 = d6 >> 54 | d7 << 10;
    let p8 = (d7 >> 53 | crc << 11) & !1;

    let p37 = p3 ^ p7;
    let p57 = p5 ^ p7;
    let p26 = p2 ^ p6;
    let bit6 = p1 ^ p37 ^ p5;
    let bit7 = p26 ^ p37;
    let bit8 = p4 ^ p6 ^ p57;
    let all = p0 ^ p1 ^ p26 ^ p3 ^ p4 ^ p57 ^ p8;

    // All words in one: its bits by number within the byte, and its bytes'
    // parities by number of the byte.
    let mut folded = all ^ all >> 32;
    folded ^= folded >> 16;
    folded ^= folded >> 8;
    let low = u64::from(FOLD[usize::from(folded as u8)]);
    let mut parities = all ^ all >> 4;
    parities ^= parities >> 2;
    parities ^= parities >> 1;
    let gathered = (parities & 0x0101_0101_0101_0101).wrapping_mul(0x0102_0408_1020_4080) >> 56;
    let middle = u64::from(FOLD[usize::from(gathered as u8)]);

    low | middle << 3 | parity(bit6) << 6 | parity(bit7) << 7 | parity(bit8) << 8 | parity(p8) << 9
}

#[inline]
fn parity(word: u64) -> u64 {
    u64::from(word.count_ones() & 1)
}

/// The first eight words: the data.
#[inline]
fn data_of(line: &Words) -> &[u64; 8] {
    line.first_chunk().unwrap_or(&[0; 8])
}

/// What the protected word leaves when divided, place 512 in bit 0.
#[inline]
fn remainder(line: &Words) -> u32 {
    crc(data_of(line)) ^ (line[8] as u32 & CRC_BITS)
}

#[inline]
fn own_hamming_bits(line: &Words) -> u64 {
    hamming_bits(data_of(line), line[8] as u32 & CRC_BITS)
}

/// The last word with the Hamming bits afresh.
#[inline]
fn with_own_hamming_bits(line: &Words) -> u64 {
    line[8] & u64::from(CRC_BITS) | own_hamming_bits(line) << 32
}

/// Reads a line alone, in place; gives its mark.
#[inline]
pub fn read_alone(line: &mut Words) -> u8 {
    if remainder(line) != 0 {
        return read_hurt(line);
    }
    let found = line[8];
    line[8] = with_own_hamming_bits(line);
    // Only the Hamming bits can have changed.
    if line[8] == found {
        mark::CLEAN
    } else {
        mark::REWRITTEN
    }
}

/// Reads a line whose protected word isn't divisible.
#[cold]
fn read_hurt(line: &mut Words) -> u8 {
    match Trouble::of(line).flip() {
        Some(Flip::Place(place)) => {
            flip(line, place);
            line[8] = with_own_hamming_bits(line);
            mark::REWRITTEN
        }
        _ => mark::FAULTY,
    }
}

/// What there is to say about a line for reading it alone: the remainder and
/// the syndrome. Both change with a flip by what the place alone gives.
#[derive(Clone, Copy)]
pub struct Trouble {
    remainder: u32,
    syndrome: u16,
}

/// What makes a line's protected word divisible.
#[derive(Clone, Copy)]
pub enum Flip {
    /// It already is.
    Nothing,
    /// The flip of this protected place, which the syndrome names.
    Place(usize),
}

impl Trouble {
    /// A line's trouble.
    pub fn of(line: &Words) -> Trouble {
        Trouble {
            remainder: remainder(line),
            syndrome: (own_hamming_bits(line) ^ line[8] >> 32) as u16,
        }
    }

    /// The trouble after a flip of this place, which is below 553.
    pub fn after(self, place: usize) -> Trouble {
        Trouble {
            remainder: self.remainder ^ REMAINDERS[place],
            syndrome: self.syndrome ^ POSITIONS[place],
        }
    }

    /// How the line reads alone; none if it is faulty.
    pub fn flip(self) -> Option<Flip> {
        if self.remainder == 0 {
            return Some(Flip::Nothing);
        }
        let place = NAMED[usize::from(self.syndrome & 1023)];
        let place = usize::from(place);
        match REMAINDERS.get(place) {
            Some(&alone) if alone == self.remainder => Some(Flip::Place(place)),
            _ => None,
        }
    }
}

/// Flips a place of a line.
pub fn flip(line: &mut Words, place: usize) {
    match place {
        0..PROTECTED => line[place / 64] ^= 1 << (place % 64),
        _ => line[8] ^= 1 << (32 + place - PROTECTED),
    }
}

/// The places where a line isn't 0, rising, if there are 1 to 6.
pub fn few_places(line: &Words) -> Option<([usize; 6], usize)> {
    let count: u32 = line.iter().map(|word| word.count_ones()).sum();
    if !(1..=6).contains(&count) {
        return None;
    }
    let mut places = [0; 6];
    let mut found = 0;
    for (i, &word) in line.iter().enumerate() {
        let mut rest = word;
        while rest != 0 {
            let bit = rest.trailing_zeros() as usize;
            rest &= rest - 1;
            // In the last word the Hamming bits stand one bit further up.
            let moved = usize::from(i == 8 && bit >= 32);
            places[found] = 64 * i + bit - moved;
            found += 1;
        }
    }
    Some((places, found))
}
