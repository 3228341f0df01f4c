//! The caption store's line code and repair, as fast as safe Rust for any
//! x86-64 makes them: the measure that the proved library is held against.
//!
//! The rules are document 01's, with requests of document 02,
//! and of Q-5 what the library is measured by: a count of marks, and a comparison
//! of two wear reports. A line is nine 64-bit words: eight of data, and one with
//! the CRC in bits 0 to 30 and the Hamming bits from bit 32. The CRC goes by
//! tables, sixteen bytes at a time; the Hamming bits by moving places to their
//! positions, a word at a time, and folding. Repair reads every parity line and
//! every line once, keeps for each group what its lines lack of its parity line,
//! and from then on looks only at groups in which something changed. A forecast
//! keeps for each group how many of its lines are faulty, and which it is if
//! there is one.

mod code;
mod forecast;
mod rectangle;
pub mod wear;

use code::Words;

pub use forecast::forecast;
pub use rectangle::{Out, Repair, make_tables, repair};

const LINE_BYTES: usize = 70;
const DATA_BYTES: usize = 64;

mod answer {
    pub const DONE: u32 = 0;
    pub const SIDES: u32 = 2;
    pub const LINES: u32 = 5;
    pub const TABLE: u32 = 6;
    pub const BUFFER: u32 = 7;
    pub const WEAR: u32 = 15;
    pub const FAULTY: u32 = 10;
    pub const LEFT: u32 = 11;
    pub const DIFFERS: u32 = 12;
}

mod mark {
    pub const CLEAN: u8 = 0;
    pub const REWRITTEN: u8 = 1;
    pub const TRIAL: u8 = 2;
    pub const REBUILT: u8 = 3;
    pub const FAULTY: u8 = 4;
}

/// What reading one line alone gives, beside the line written out.
#[derive(Clone, Copy, Debug, PartialEq, Eq)]
pub struct ReadLine {
    /// The answer.
    pub answer: u32,
    /// The mark: with answer 0, 0 if the line is correct as found and 1 if any
    /// place was rewritten; 4 with answer 10; else 0.
    pub mark: u8,
}

/// Writes the line of 64 data bytes into `line`; gives the answer.
///
/// Refusal: 7 (data or line buffer).
pub fn write_line(data: &[u8], line: &mut [u8]) -> u32 {
    let (Ok(data), Ok(line)) = (
        <&[u8; DATA_BYTES]>::try_from(data),
        <&mut [u8; LINE_BYTES]>::try_from(line),
    ) else {
        return answer::BUFFER;
    };
    code::store(&code::written(data), line);
    answer::DONE
}

/// Reads one line alone into `out`.
///
/// Refusals: 5 (line), 7 (out), 10. With 10 the line is still written, as
/// found with spare bits 0, and the mark is 4.
pub fn read_line(line: &[u8], out: &mut [u8]) -> ReadLine {
    let refused = |answer| ReadLine { answer, mark: 0 };
    let Ok(line) = <&[u8; LINE_BYTES]>::try_from(line) else {
        return refused(answer::LINES);
    };
    let Ok(out) = <&mut [u8; LINE_BYTES]>::try_from(out) else {
        return refused(answer::BUFFER);
    };
    let mut words: Words = code::load(line);
    let mark = code::read_alone(&mut words);
    code::store(&words, out);
    let answer = if mark == mark::FAULTY {
        answer::FAULTY
    } else {
        answer::DONE
    };
    ReadLine { answer, mark }
}
