//! One line: its 553 places, its 70 bytes, writing it and reading it alone.

use crate::code::LineCode;
use crate::{DATA_BYTES, DATA_PLACES, LINE_BYTES, PLACES, PROTECTED_PLACES, answer, mark};

/// A line as its 553 places.
pub type Line = [bool; PLACES];

/// The line of zeros.
pub const ZERO: Line = [false; PLACES];

/// The byte and the bit (0 lowest) where a place stands.
pub fn byte_and_bit(place: usize) -> (usize, usize) {
    if place < DATA_PLACES {
        (place / 8, place % 8)
    } else if place < PROTECTED_PLACES {
        let j = place - DATA_PLACES;
        (64 + j / 8, j % 8)
    } else {
        let k = place - PROTECTED_PLACES;
        (68 + k / 8, k % 8)
    }
}

/// The byte and the bit of each spare bit: bit 7 of byte 67 and bits 2 to 7 of
/// byte 69.
pub const SPARE: [(usize, usize); 7] = [
    (67, 7),
    (69, 2),
    (69, 3),
    (69, 4),
    (69, 5),
    (69, 6),
    (69, 7),
];

/// The places of a line's bytes; spare bits are ignored.
///
/// Bytes that aren't there count as 0.
pub fn places(bytes: &[u8]) -> Line {
    let mut line = ZERO;
    for (place, set) in line.iter_mut().enumerate() {
        let (byte, bit) = byte_and_bit(place);
        *set = bytes.get(byte).is_some_and(|&b| (b >> bit) & 1 == 1);
    }
    line
}

/// The 70 bytes of a line, spare bits 0.
pub fn bytes(line: &Line) -> [u8; LINE_BYTES] {
    let mut bytes = [0; LINE_BYTES];
    for (place, &set) in line.iter().enumerate() {
        let (byte, bit) = byte_and_bit(place);
        bytes[byte] |= u8::from(set) << bit;
    }
    bytes
}

/// The place-by-place exclusive or of two lines.
pub fn exclusive_or(a: &Line, b: &Line) -> Line {
    let mut sum = *a;
    for (place, &other) in sum.iter_mut().zip(b) {
        *place ^= other;
    }
    sum
}

/// The line written for 64 data bytes, as places.
pub fn written(data: &[u8; DATA_BYTES]) -> Line {
    let line = places(data);
    from_row(&LineCode::store().write(&line[..DATA_PLACES]))
}

/// A line as it reads alone, and its mark.
pub fn read_alone(line: &Line) -> (Line, u8) {
    let (row, mark) = LineCode::store().read_alone(line);
    (from_row(&row), mark)
}

/// Whether a line is one that writing its data gives.
pub fn correct(line: &Line) -> bool {
    LineCode::store().correct(line)
}

fn from_row(row: &[bool]) -> Line {
    let mut line = ZERO;
    for (to, &from) in line.iter_mut().zip(row) {
        *to = from;
    }
    line
}

/// Writes the line of 64 data bytes into `line`; gives the answer.
///
/// Refusal: 7 (data or line buffer).
pub fn write_line(data: &[u8], line: &mut [u8]) -> u32 {
    let Ok(data) = <&[u8; DATA_BYTES]>::try_from(data) else {
        return answer::BUFFER;
    };
    if line.len() != LINE_BYTES {
        return answer::BUFFER;
    }
    line.copy_from_slice(&bytes(&written(data)));
    answer::DONE
}

/// What reading one line alone gives, beside the line written out.
#[derive(Clone, Copy, Debug, PartialEq, Eq)]
pub struct ReadLine {
    /// The answer.
    pub answer: u32,
    /// The mark: with answer 0, 0 if the line is correct as found and 1 if any
    /// place was rewritten; 4 with answer 10; else 0.
    pub mark: u8,
}

/// Reads one line alone into `out`.
///
/// Refusals: 5 (line), 7 (out), 10. With 10 the line is still written, as
/// found with spare bits 0, and the mark is 4.
pub fn read_line(line: &[u8], out: &mut [u8]) -> ReadLine {
    let refused = |answer| ReadLine { answer, mark: 0 };
    if line.len() != LINE_BYTES {
        return refused(answer::LINES);
    }
    if out.len() != LINE_BYTES {
        return refused(answer::BUFFER);
    }
    let (read, mark) = read_alone(&places(line));
    out.copy_from_slice(&bytes(&read));
    let answer = if mark == mark::FAULTY {
        answer::FAULTY
    } else {
        answer::DONE
    };
    ReadLine { answer, mark }
}
