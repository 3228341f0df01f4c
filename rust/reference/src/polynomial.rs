//! Polynomials over two elements, as rows of bits.
//!
//! The first bit is the coefficient of the highest power, the last bit that
//! of x^0. Lengths are free, so that public vectors of any width run through
//! the same division as the store's lines.

/// The polynomial whose powers with coefficient 1 are those given.
///
/// A power named twice cancels, as everywhere over two elements.
pub fn from_powers(powers: &[usize]) -> Vec<bool> {
    let Some(highest) = powers.iter().max() else {
        return Vec::new();
    };
    let mut polynomial = vec![false; highest + 1];
    for power in powers {
        polynomial[highest - power] ^= true;
    }
    polynomial
}

/// The lowest `width` binary digits of a number, highest first.
pub fn from_number(number: u64, width: usize) -> Vec<bool> {
    (0..width)
        .rev()
        .map(|digit| digit < 64 && (number >> digit) & 1 == 1)
        .collect()
}

/// The number whose binary digits are these bits, highest first.
///
/// Only the last 64 bits fit; those before them are dropped.
pub fn to_number(bits: &[bool]) -> u64 {
    bits.iter()
        .fold(0, |number, &bit| (number << 1) | u64::from(bit))
}

/// The product of two polynomials.
pub fn product(a: &[bool], b: &[bool]) -> Vec<bool> {
    if a.is_empty() || b.is_empty() {
        return Vec::new();
    }
    let mut sum = vec![false; a.len() + b.len() - 1];
    for (i, &in_a) in a.iter().enumerate() {
        for (j, &in_b) in b.iter().enumerate() {
            sum[i + j] ^= in_a && in_b;
        }
    }
    sum
}

/// The remainder of `word` by `generator`, by long division.
///
/// It has as many bits as the generator's degree. The generator may begin
/// with zeros; if it is zero altogether there is nothing to take away, and the
/// word itself comes back.
pub fn remainder(word: &[bool], generator: &[bool]) -> Vec<bool> {
    let Some(first) = generator.iter().position(|&bit| bit) else {
        return word.to_vec();
    };
    let generator = &generator[first..];
    let degree = generator.len() - 1;

    // A short word gets zeros in front, so that the answer has its width.
    let mut rest = vec![false; degree.saturating_sub(word.len())];
    rest.extend_from_slice(word);

    // Wherever the highest bit left is set, take the generator away there.
    for i in 0..rest.len() - degree {
        if rest[i] {
            for (bit, taken) in rest[i..i + generator.len()].iter_mut().zip(generator) {
                *bit ^= taken;
            }
        }
    }
    rest[rest.len() - degree..].to_vec()
}

/// The three factors of degree ten of the store's generator.
///
/// They are the minimal polynomials of a, a^3 and a^5, where a is a root of
/// the first one.
pub fn minimal_polynomials() -> [Vec<bool>; 3] {
    [
        from_powers(&[10, 3, 0]),
        from_powers(&[10, 3, 2, 1, 0]),
        from_powers(&[10, 8, 3, 2, 0]),
    ]
}

/// The store's generator: x+1 times the three minimal polynomials.
pub fn generator() -> Vec<bool> {
    minimal_polynomials()
        .iter()
        .fold(from_powers(&[1, 0]), |so_far, factor| {
            product(&so_far, factor)
        })
}
