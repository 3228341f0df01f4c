//! Polynomials and words from public tables, on both implementations: the CRC of
//! one place is the rest of a power of x by the published generator, which is
//! worked out here, and the Hamming bits are Hamming's checks.

use library_tests::both;
use reference::LINE_BYTES;

/// The minimal polynomials of a, a^3 and a^5, where a is a root of the first, in
/// octal as Peterson and Weldon have them (Error-Correcting Codes, second
/// edition, appendix C, degree 10).
const IRREDUCIBLE: [u64; 3] = [0o2011, 0o2017, 0o2415];

/// The generator of the (1023, 1003) code in octal as Lin and Costello have it
/// (Error Control Coding, appendix C).
const DOUBLE_ERROR: u64 = 0o4014167;

/// The words of Hamming's code of seven positions, each with its data (Error
/// Detecting and Error Correcting Codes, Bell System Technical Journal 29, 1950).
const SEVEN_POSITIONS: [(u8, &str); 16] = [
    (0, "0000000"),
    (1, "1101001"),
    (2, "0101010"),
    (3, "1000011"),
    (4, "1001100"),
    (5, "0100101"),
    (6, "1100110"),
    (7, "0001111"),
    (8, "1110000"),
    (9, "0011001"),
    (10, "1011010"),
    (11, "0110011"),
    (12, "0111100"),
    (13, "1010101"),
    (14, "0010110"),
    (15, "1111111"),
];

/// The product of two polynomials over two elements; bit i is the coefficient of
/// x^i.
fn product(a: u64, b: u64) -> u64 {
    let set = (0..32).filter(|i| b >> i & 1 == 1);
    set.fold(0, |sum, i| sum ^ a << i)
}

/// The generator: x+1 times the three.
fn generator() -> u64 {
    IRREDUCIBLE.into_iter().fold(0b11, product)
}

/// What x^power leaves when it is divided by the generator.
fn rest_of_power(power: usize) -> u64 {
    let generator = generator();
    let times_x = |rest: u64| match rest << 1 {
        next if next >> 31 == 1 => next ^ generator,
        next => next,
    };
    (0..power).fold(1, |rest, _| times_x(rest))
}

/// Whether a place of a line is set.
fn is_set(line: &[u8], place: usize) -> bool {
    // The Hamming bits begin with byte 68, one bit after the CRC's last.
    let bit = if place < 543 { place } else { place + 1 };
    line[bit / 8] >> (bit % 8) & 1 == 1
}

/// The CRC that a line holds; place 512 is the coefficient of x^30.
fn crc_of(line: &[u8]) -> u64 {
    (512..543).fold(0, |crc, place| crc << 1 | u64::from(is_set(line, place)))
}

/// The position of each protected place: the numbers from 3 up that aren't powers
/// of two.
fn positions() -> Vec<usize> {
    let all = (3..).filter(|n: &usize| !n.is_power_of_two());
    all.take(543).collect()
}

#[test]
fn the_generator_is_of_the_published_factors() {
    let [first, second, _] = IRREDUCIBLE;
    assert_eq!(product(first, second), DOUBLE_ERROR);
    assert_eq!(generator(), 0x1 << 31 | 0x71FB_3335);
}

#[test]
fn the_crc_of_one_data_place_is_the_rest_of_a_power() {
    for on in both() {
        for place in 0..512 {
            let mut data = [0; 64];
            data[place / 8] = 1 << (place % 8);
            let mut line = [0xEE; LINE_BYTES];
            assert_eq!(on.write_line(&data, &mut line), 0);
            assert_eq!(crc_of(&line), rest_of_power(542 - place), "place {place}");
        }
    }
}

#[test]
fn the_hamming_bits_are_those_of_hammings_words() {
    // Places 0 to 3 have positions 3, 5, 6 and 7, and the checks 1, 2 and 4 are
    // Hamming bits 0 to 2. A line has CRC places too, whose positions are taken
    // out of its Hamming bits again.
    let positions = positions();
    assert_eq!(
        (positions[..4].to_vec(), positions[542]),
        (vec![3, 5, 6, 7], 553)
    );
    for on in both() {
        for (number, word) in SEVEN_POSITIONS {
            let word: Vec<bool> = word.chars().map(|c| c == '1').collect();
            let at = |position: usize| usize::from(word[position - 1]);
            let data_bits = [3, 5, 6, 7].map(at);
            assert_eq!(
                data_bits.into_iter().fold(0, |n, bit| n << 1 | bit),
                number.into()
            );
            let mut data = [0; 64];
            data[0] = (0..4).map(|i| (data_bits[i] << i) as u8).sum();
            let mut line = [0xEE; LINE_BYTES];
            assert_eq!(on.write_line(&data, &mut line), 0);
            let stored = (0..10)
                .map(|k| usize::from(is_set(&line, 543 + k)) << k)
                .sum();
            let of_crc = (512..543).filter(|&place| is_set(&line, place));
            let checks = of_crc.fold(stored, |sum: usize, place| sum ^ positions[place]);
            assert_eq!(checks, at(1) | at(2) << 1 | at(4) << 2, "data {number}");
        }
    }
}
