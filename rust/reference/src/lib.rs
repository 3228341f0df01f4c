//! A second implementation of the caption store, written from its rules alone:
//! document 01, with requests Q-1 to Q-7 of document 02 and, for Q-7, sections
//! III-C and III-E of document 000.
//!
//! It is made to be read beside them, not to be fast: a line is a row of 553
//! truth values, a check is a long division, and repair follows the rules'
//! sentences one by one. Tests hold the proved library against it.
//!
//! | Document 01 | Here |
//! |---|---|
//! | "CRC" | [`polynomial`] |
//! | "Hamming" | [`hamming`] |
//! | "Reading alone", for any width | [`code`] |
//! | "One line, 70 bytes" | [`line`](mod@line) |
//! | "The rectangle" | [`rectangle`] |
//! | "Repair", as Q-3 changes it | [`repair`](mod@repair) |
//! | Request Q-4, one line wanted | [`lookup`] |
//! | Request Q-5, wear of a whole tour | [`wear`] |
//! | Request Q-6, what rebuilding alone would save | [`forecast`](mod@forecast) |
//! | Request Q-7, reading alone in the order of document 000 | [`paper_order`] |
//! | "Store file" | [`file`](mod@file) |
//! | "Turned back, in checking order", as Q-2 and Q-3 change it | [`answer`] |
//! | The marks, as Q-1 changes them | [`mark`] |
//!
//! [`random`] and [`draw`] make inputs for tests: stores, damage, files, wear
//! reports and patterns of faulty lines, each the same again for the same seed.
//!
//! The entry points take slices of any length and never panic on them.
//! What they write goes into the buffers lent to them; after a refusal, which
//! is any answer but 0, 11 and 12, these hold what they held before, but for
//! [`read_line`]'s 10.
//!
//! ```
//! let mut line = [0; 70];
//! assert_eq!(reference::write_line(b"To be, or not to be, that is the question: Whether 'tis nobler i", &mut line), 0);
//!
//! // One bit turns over; the line still reads alone.
//! let mut hurt = line;
//! hurt[5] ^= 0x10;
//! let mut out = [0; 70];
//! let read = reference::read_line(&hurt, &mut out);
//! assert_eq!((read.answer, read.mark), (0, 1));
//! assert_eq!(out, line);
//!
//! // A hurt Hamming bit shows in the mark too.
//! let mut hurt = line;
//! hurt[68] ^= 0x01;
//! let read = reference::read_line(&hurt, &mut out);
//! assert_eq!((read.answer, read.mark), (0, 1));
//! assert_eq!(out, line);
//! ```

pub mod code;
pub mod draw;
pub mod file;
pub mod forecast;
pub mod hamming;
pub mod line;
pub mod lookup;
pub mod paper_order;
pub mod polynomial;
pub mod random;
pub mod rectangle;
pub mod repair;
pub mod wear;

pub use file::{StoreFile, check_file, storecheck};
pub use forecast::{Forecast, forecast};
pub use line::{ReadLine, read_line, write_line};
pub use lookup::{One, read_one};
pub use rectangle::{Change, change_line, make_tables};
pub use repair::{Out, Repair, repair};

/// Data bytes of one line.
pub const DATA_BYTES: usize = 64;

/// Bytes of one line.
pub const LINE_BYTES: usize = 70;

/// Places of data, from place 0.
pub const DATA_PLACES: usize = 512;

/// Places of the CRC, after the data.
pub const CRC_PLACES: usize = 31;

/// Protected places: data and CRC.
pub const PROTECTED_PLACES: usize = DATA_PLACES + CRC_PLACES;

/// Hamming bits, after the protected places.
pub const HAMMING_PLACES: usize = 10;

/// All places of one line.
pub const PLACES: usize = PROTECTED_PLACES + HAMMING_PLACES;

/// The least number of rows or columns.
pub const LEAST_SIDE: usize = 2;

/// The greatest number of rows or columns.
pub const GREATEST_SIDE: usize = 512;

/// The greatest number of rows or columns that the program takes.
pub const PROGRAM_SIDE: usize = 16;

/// The answers, by document 01's numbers and those of requests Q-2 and Q-5; in
/// checking order.
pub mod answer {
    /// Success.
    pub const DONE: u32 = 0;
    /// The file has fewer than 28 bytes.
    pub const SHORT_FILE: u32 = 1;
    /// Rows or columns lie outside 2 to 512.
    pub const SIDES: u32 = 2;
    /// In the program only: rows or columns exceed 16.
    pub const PROGRAM_SIDES: u32 = 3;
    /// The contents table or the file's length is another than required.
    pub const CONTENTS: u32 = 4;
    /// The lines handed in have another length.
    pub const LINES: u32 = 5;
    /// A table, read or written, has another length.
    pub const TABLE: u32 = 6;
    /// Any other buffer has another length.
    pub const BUFFER: u32 = 7;
    /// The line number isn't below rows times columns.
    pub const NUMBER: u32 = 8;
    /// A wear report doesn't add up or has too much; in an addition also: it is
    /// full, or what is added is no repair result.
    pub const WEAR: u32 = 15;
    /// In a change: the row's parity line, spare bits apart, isn't correct.
    pub const ROW_PARITY: u32 = 13;
    /// In a change: the column's parity line, spare bits apart, isn't correct.
    pub const COLUMN_PARITY: u32 = 14;
    /// A line to be read alone, changed or summed is faulty.
    pub const FAULTY: u32 = 10;
    /// Faulty lines are left after the last pass; the one line wanted is.
    pub const LEFT: u32 = 11;
    /// No line is faulty, but some accepted parity line differs from the repaired
    /// lines'.
    pub const DIFFERS: u32 = 12;

    /// Whether this answer turns a call back: with 0, 11 and 12 results are
    /// handed over, with every other nothing is.
    pub fn turns_back(answer: u32) -> bool {
        ![DONE, LEFT, DIFFERS].contains(&answer)
    }
}

/// The marks, by document 01's numbers; 0 and 1 mean what request Q-1 says.
pub mod mark {
    /// Correct as found.
    pub const CLEAN: u8 = 0;
    /// Accepted, and some place was rewritten.
    pub const REWRITTEN: u8 = 1;
    /// Mended by trial.
    pub const TRIAL: u8 = 2;
    /// Rebuilt from its group.
    pub const REBUILT: u8 = 3;
    /// Faulty.
    pub const FAULTY: u8 = 4;
}

/// The last step taken for one line, by request Q-4's numbers.
pub mod step {
    /// The line was read alone.
    pub const ALONE: u32 = 1;
    /// Its row was visited.
    pub const ROW: u32 = 2;
    /// The whole rectangle was repaired.
    pub const REPAIR: u32 = 3;
}

/// How the first of two reports' shares stands to the second.
pub mod order {
    /// They are equal.
    pub const EQUAL: u32 = 0;
    /// The first is smaller.
    pub const SMALLER: u32 = 1;
    /// The first is greater.
    pub const GREATER: u32 = 2;
}
