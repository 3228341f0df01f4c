//! Public vectors, run through the same division and the same Hamming code as
//! the store's lines. They come from
//!
//! - Peterson and Weldon, Error-Correcting Codes, second edition, appendix C:
//!   the table of irreducible polynomials over two elements, in octal, degree 10;
//! - Lin and Costello, Error Control Coding, appendix C: the generators of binary
//!   BCH codes of lengths up to 1023, in octal;
//! - Hamming, Error Detecting and Error Correcting Codes, Bell System Technical
//!   Journal 29, 1950: which positions each check covers, and the 16 words of the
//!   code of seven positions;
//! - the Catalogue of parametrised CRC algorithms (CRC RevEng): check values.
//!
//! Each is worked out here, so that a slip of the pen would show.

use reference::code::LineCode;
use reference::hamming::{Hamming, Named};
use reference::polynomial::{
    from_number, from_powers, generator, minimal_polynomials, product, remainder, to_number,
};
use reference::random::Random;

/// Multiplication in the field of 1024 elements, a being a root of
/// x^10+x^3+1. An element is a number below 1024.
fn times(a: u32, b: u32) -> u32 {
    let bits = product(
        &from_number(u64::from(a), 10),
        &from_number(u64::from(b), 10),
    );
    to_number(&remainder(&bits, &from_powers(&[10, 3, 0]))) as u32
}

/// The power of a.
fn power(exponent: usize) -> u32 {
    (0..exponent % 1023).fold(1, |so_far, _| times(so_far, 2))
}

/// The minimal polynomial of a^exponent: the product of x - c over its
/// conjugates c = a^exponent, a^(2 exponent), and so on. Lowest power first.
fn minimal_polynomial(exponent: usize) -> Vec<u32> {
    let mut conjugates = Vec::new();
    let mut at = exponent % 1023;
    while !conjugates.contains(&at) {
        conjugates.push(at);
        at = at * 2 % 1023;
    }
    conjugates.iter().fold(vec![1], |so_far, &conjugate| {
        let mut next = vec![0];
        next.extend(&so_far);
        for (to, from) in next.iter_mut().zip(so_far) {
            *to ^= times(from, power(conjugate));
        }
        next
    })
}

#[test]
fn minimal_polynomials_in_octal() {
    // Peterson and Weldon, degree 10: roots a, a^3 and a^5.
    let octal = minimal_polynomials().map(|factor| to_number(&factor));
    assert_eq!(octal, [0o2011, 0o2017, 0o2415]);
}

#[test]
fn minimal_polynomials_from_their_roots() {
    assert_eq!((1..1023).find(|&e| power(e) == 1), None, "a is primitive");
    for (root, factor) in [1, 3, 5].into_iter().zip(minimal_polynomials()) {
        let lowest_first = minimal_polynomial(root);
        let expected: Vec<u32> = factor.iter().rev().map(|&bit| u32::from(bit)).collect();
        assert_eq!(lowest_first, expected);
    }
}

#[test]
fn double_error_generator_4014167() {
    // Lin and Costello: the (1023, 1003) code, which corrects two errors.
    let [first, second, _] = minimal_polynomials();
    let generator = product(&first, &second);
    assert_eq!(to_number(&generator), 0o4014167);
    assert_eq!(generator.len() - 1, 1023 - 1003);
}

#[test]
fn triple_error_generator_divides_x_1023_plus_1() {
    // The (1023, 993) code's generator, and with x+1 the store's.
    let mut word = from_powers(&[1023, 0]);
    assert!(remainder(&word, &generator()).iter().all(|&bit| !bit));
    word[1] ^= true;
    assert!(remainder(&word, &generator()).iter().any(|&bit| bit));
}

#[test]
fn generator_lower_31_coefficients() {
    let generator = generator();
    assert_eq!(generator.len(), 32);
    assert!(generator[0]);
    assert_eq!(to_number(&generator[1..]), 0x71FB_3335);
    for factor in minimal_polynomials().iter().chain([&vec![true, true]]) {
        assert!(remainder(&generator, factor).iter().all(|&bit| !bit));
    }
}

#[test]
fn divisible_as_the_roots_say() {
    // A protected word is divisible exactly if a^0, a, a^3 and a^5 are roots.
    let code = LineCode::store();
    let table: Vec<u32> = (0..1023).map(power).collect();
    let all_roots = |line: &[bool]| {
        [0, 1, 3, 5].into_iter().all(|root| {
            let set = (0..543).filter(|&place| line[place]);
            set.fold(0, |sum, place| sum ^ table[root * (542 - place) % 1023]) == 0
        })
    };
    let mut random = Random::new(1023);
    for case in 0..2000 {
        let data: Vec<bool> = (0..512).map(|_| random.once_in(2)).collect();
        let mut line = code.write(&data);
        assert!(code.divisible(&line) && all_roots(&line));
        for _ in 0..case % 9 {
            line[random.below(543)] ^= true;
        }
        assert_eq!(code.divisible(&line), all_roots(&line));
    }
}

#[test]
fn no_seven_places_are_divisible() {
    // x+1 divides the generator, so no odd number of places is divisible. Were
    // two, four or six, then two different triples would have the same
    // remainder.
    let place_remainder = |place: usize| {
        let mut word = vec![false; 543];
        word[place] = true;
        to_number(&remainder(&word, &generator())) as u32
    };
    let single: Vec<u32> = (0..543).map(place_remainder).collect();
    let mut triples = Vec::with_capacity(543 * 542 * 541 / 6);
    for i in 0..543 {
        for j in 0..i {
            let two = single[i] ^ single[j];
            triples.extend(single[..j].iter().map(|third| two ^ third));
        }
    }
    assert_eq!(triples.len(), 543 * 542 * 541 / 6);
    triples.sort_unstable();
    assert!(triples.windows(2).all(|pair| pair[0] != pair[1]));
    let by_x_plus_1 = remainder(&generator(), &[true, true]);
    assert_eq!(by_x_plus_1, [false]);
}

/// The catalogue's CRC-32/ISO-HDLC, which is reflected, by plain division.
fn crc_32(message: &[u8]) -> u32 {
    let mut bits: Vec<bool> = message
        .iter()
        .flat_map(|&byte| (0..8).map(move |bit| (byte >> bit) & 1 == 1))
        .collect();
    bits.extend([false; 32]);
    for bit in bits.iter_mut().take(32) {
        *bit ^= true;
    }
    let rest = remainder(&bits, &from_number(0x1_04C1_1DB7, 33));
    !(to_number(&rest) as u32).reverse_bits()
}

#[test]
fn crc_32_check_value() {
    // The first is the catalogue's check value of CRC-32/ISO-HDLC.
    assert_eq!(crc_32(b"123456789"), 0xCBF4_3926);
    assert_eq!(crc_32(&[0; 4]), 0x2144_DF1C);
    assert_eq!(
        crc_32(b"The quick brown fox jumps over the lazy dog"),
        0x414F_A339
    );
}

#[test]
fn crc_16_and_crc_24_check_values() {
    // The catalogue's CRC-16/XMODEM and CRC-24/OPENPGP: no inversion, highest
    // bit first, the former without a starting value.
    let bits = |start: &[bool], width: usize| {
        let message = b"123456789";
        let mut bits: Vec<bool> = message
            .iter()
            .flat_map(|&byte| from_number(u64::from(byte), 8))
            .collect();
        bits.extend(vec![false; width]);
        for (bit, &start) in bits.iter_mut().zip(start) {
            *bit ^= start;
        }
        bits
    };
    let xmodem = remainder(&bits(&[], 16), &from_number(0x1_1021, 17));
    assert_eq!(to_number(&xmodem), 0x31C3);
    let open_pgp = remainder(
        &bits(&from_number(0xB7_04CE, 24), 24),
        &from_number(0x186_4CFB, 25),
    );
    assert_eq!(to_number(&open_pgp), 0x21_CF02);
}

/// The code word with every bit at its position, position 1 first.
fn by_position(hamming: &Hamming, data: &[bool]) -> Vec<bool> {
    let bits = hamming.bits(data);
    let mut word = vec![false; hamming.highest() + 1];
    for (&position, &set) in hamming.positions().iter().zip(data) {
        word[position] = set;
    }
    for (k, set) in bits.into_iter().enumerate() {
        word[1 << k] = set;
    }
    word.remove(0);
    word
}

fn bits(text: &str) -> Vec<bool> {
    text.chars().map(|c| c == '1').collect()
}

#[test]
fn hamming_7_4_table() {
    // Hamming's words of seven positions: data d1 d2 d3 d4, code word
    // p1 p2 d1 p3 d2 d3 d4.
    let table = [
        ("0000", "0000000"),
        ("1000", "1110000"),
        ("0100", "1001100"),
        ("1100", "0111100"),
        ("0010", "0101010"),
        ("1010", "1011010"),
        ("0110", "1100110"),
        ("1110", "0010110"),
        ("0001", "1101001"),
        ("1001", "0011001"),
        ("0101", "0100101"),
        ("1101", "1010101"),
        ("0011", "1000011"),
        ("1011", "0110011"),
        ("0111", "0001111"),
        ("1111", "1111111"),
    ];
    let hamming = Hamming::new(4);
    assert_eq!(hamming.positions(), [3, 5, 6, 7]);
    assert_eq!(hamming.checks(), 3);
    for (data, word) in table {
        assert_eq!(by_position(&hamming, &bits(data)), bits(word), "{data}");
    }
}

#[test]
fn hamming_15_11_table() {
    // Hamming's table of what each check covers, by position.
    let covers: [&[usize]; 4] = [
        &[1, 3, 5, 7, 9, 11, 13, 15],
        &[2, 3, 6, 7, 10, 11, 14, 15],
        &[4, 5, 6, 7, 12, 13, 14, 15],
        &[8, 9, 10, 11, 12, 13, 14, 15],
    ];
    let hamming = Hamming::new(11);
    assert_eq!(hamming.positions(), [3, 5, 6, 7, 9, 10, 11, 12, 13, 14, 15]);
    assert_eq!(hamming.checks(), 4);
    for number in 0..1 << 11 {
        let word = by_position(&hamming, &from_number(number, 11));
        for covered in covers {
            let parity = covered.iter().fold(false, |p, &at| p ^ word[at - 1]);
            assert!(!parity);
        }
    }
}

#[test]
fn hamming_weights() {
    // From no table, but the coefficients of
    // ((1+x)^n + n (1+x)^((n-1)/2) (1-x)^((n+1)/2)) / (n+1).
    let weights = |data: usize| {
        let hamming = Hamming::new(data);
        let mut counts = vec![0; hamming.highest() + 1];
        for number in 0..1 << data {
            let word = by_position(&hamming, &from_number(number, data));
            counts[word.iter().filter(|&&set| set).count()] += 1;
        }
        counts
    };
    assert_eq!(weights(4), [1, 0, 0, 7, 7, 0, 0, 1]);
    assert_eq!(
        weights(11),
        [
            1, 0, 0, 35, 105, 168, 280, 435, 435, 280, 168, 105, 35, 0, 0, 1
        ]
    );
}

#[test]
fn hamming_names_each_single_place() {
    for protected in [1, 4, 11, 26, 57, 120, 247, 502, 543] {
        let hamming = Hamming::new(protected);
        let zero = vec![false; protected];
        for place in 0..protected {
            let mut word = zero.clone();
            word[place] = true;
            let syndrome = hamming.syndrome(&word, &[]);
            assert_eq!(hamming.named(syndrome), Named::Protected(place));
            assert_eq!(hamming.syndrome(&word, &hamming.bits(&word)), 0);
        }
        for k in 0..hamming.checks() {
            let mut bits = vec![false; hamming.checks()];
            bits[k] = true;
            let syndrome = hamming.syndrome(&zero, &bits);
            assert_eq!(hamming.named(syndrome), Named::Hamming(k));
        }
    }
}

#[test]
fn code_is_linear_at_several_widths() {
    let mut random = Random::new(8);
    let codes = [
        LineCode::new(4, &from_powers(&[3, 1, 0])),
        LineCode::new(11, &minimal_polynomials()[0]),
        LineCode::new(100, &generator()),
        LineCode::store().clone(),
    ];
    for code in codes {
        for _ in 0..200 {
            let mut draw =
                || -> Vec<bool> { (0..code.data()).map(|_| random.once_in(2)).collect() };
            let xor = |a: &[bool], b: &[bool]| -> Vec<bool> {
                a.iter().zip(b).map(|(&a, &b)| a ^ b).collect()
            };
            let (a, b) = (draw(), draw());
            let sum = xor(&code.write(&a), &code.write(&b));
            assert_eq!(code.write(&xor(&a, &b)), sum);
            assert!(code.correct(&sum) && code.divisible(&sum));
            assert_eq!(code.syndrome(&sum), 0);
        }
    }
}
