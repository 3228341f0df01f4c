//! One line: written from its data, and read alone.

use crate::{DATA_BYTES, LINE_BYTES, Mark, c};

/// The line of 64 data bytes.
///
/// ```
/// let mut data = [0; 64];
/// data[63] = 0x80;
/// let line = sudoku::write_line(&data);
/// assert_eq!(line[..64], data);
/// assert_eq!(line[64..], [0xC7, 0x6F, 0x66, 0x56, 0x09, 0x00]);
/// ```
#[must_use]
pub fn write_line(data: &[u8; DATA_BYTES]) -> [u8; LINE_BYTES] {
    let mut line = [0; LINE_BYTES];
    // With these lengths the answer is always 0.
    let _ = c::write_line(data, &mut line);
    line
}

/// A line that was read, and its mark.
#[must_use]
#[derive(Clone, Copy, Debug, PartialEq, Eq)]
pub struct Read {
    /// The line read, or the line as found if it is faulty; its spare bits
    /// are 0.
    pub line: [u8; LINE_BYTES],
    /// Of a line read alone: [`Mark::Clean`] if it was correct as found,
    /// [`Mark::Rewritten`] if it was mended, or [`Mark::Faulty`]. Of one that
    /// its row or a repair mended: [`Mark::Trial`] or [`Mark::Rebuilt`].
    pub mark: Mark,
}

impl Read {
    /// The line's 64 data bytes. Those of a faulty line are damaged.
    #[must_use]
    pub fn data(&self) -> [u8; DATA_BYTES] {
        let mut data = [0; DATA_BYTES];
        data.copy_from_slice(&self.line[..DATA_BYTES]);
        data
    }

    /// Whether the line is faulty: two or more of its bits are damaged, and they
    /// couldn't be mended.
    #[must_use]
    pub fn is_faulty(&self) -> bool {
        self.mark == Mark::Faulty
    }

    /// The line's 64 data bytes, unless it is faulty.
    ///
    /// ```
    /// use sudoku::{read_line, write_line};
    /// let mut line = write_line(&[7; 64]);
    /// assert_eq!(read_line(&line).whole(), Some([7; 64]));
    /// line[0] ^= 3;
    /// assert_eq!(read_line(&line).whole(), None);
    /// ```
    #[must_use]
    pub fn whole(&self) -> Option<[u8; DATA_BYTES]> {
        (!self.is_faulty()).then(|| self.data())
    }
}

/// Reads one line alone: one damaged bit is mended, and so is any damage in the
/// ten Hamming bits alone; with any other two to six damaged bits the line is
/// faulty.
///
/// ```
/// use sudoku::{Mark, read_line, write_line};
///
/// let line = write_line(&[7; 64]);
/// let mut hurt = line;
/// hurt[5] ^= 0x10;
/// let read = read_line(&hurt);
/// assert_eq!(read.mark, Mark::Rewritten);
/// assert_eq!(read.line, line);
///
/// hurt[9] ^= 0x01;
/// assert!(read_line(&hurt).is_faulty());
///
/// // All ten Hamming bits are damaged, and no other: the line is mended.
/// let mut hurt = line;
/// hurt[68] ^= 0xFF;
/// hurt[69] ^= 0x03;
/// let read = read_line(&hurt);
/// assert_eq!(read.mark, Mark::Rewritten);
/// assert_eq!(read.line, line);
///
/// // The spare bits don't count.
/// let mut spare = line;
/// spare[69] |= 0xFC;
/// assert_eq!(read_line(&spare).mark, Mark::Clean);
/// ```
pub fn read_line(line: &[u8; LINE_BYTES]) -> Read {
    let mut out = [0; LINE_BYTES];
    // With these lengths the answer is 0, or 10 with mark 4.
    let (_, mark) = c::read_line(line, &mut out);
    Read {
        line: out,
        mark: Mark::from_number(mark),
    }
}
