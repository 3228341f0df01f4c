//! Marks of lines.

use std::fmt;

/// What a reading, a repair or a forecast says of a line.
#[derive(Clone, Copy, Debug, PartialEq, Eq, Hash)]
pub enum Mark {
    /// 0: correct as found; its spare bits don't count. In a forecast: whole,
    /// which a line that was rewritten is too.
    Clean,
    /// 1: accepted, and rewritten somewhere: a bit of data or check was
    /// flipped, or Hamming bits were changed.
    Rewritten,
    /// 2: mended by trial.
    Trial,
    /// 3: rebuilt from its row or column.
    Rebuilt,
    /// 4: faulty, given as found.
    Faulty,
    /// A number that this crate doesn't know.
    Other(u8),
}

impl Mark {
    /// The five marks, in the order of their numbers.
    pub const ALL: [Mark; 5] = [
        Mark::Clean,
        Mark::Rewritten,
        Mark::Trial,
        Mark::Rebuilt,
        Mark::Faulty,
    ];

    /// The mark with this number.
    ///
    /// ```
    /// use sudoku::Mark;
    /// assert_eq!(Mark::from_number(0), Mark::Clean);
    /// assert_eq!(Mark::from_number(3), Mark::Rebuilt);
    /// assert_eq!(Mark::from_number(3).number(), 3);
    /// ```
    #[must_use]
    pub fn from_number(number: u8) -> Mark {
        match number {
            0 => Mark::Clean,
            1 => Mark::Rewritten,
            2 => Mark::Trial,
            3 => Mark::Rebuilt,
            4 => Mark::Faulty,
            other => Mark::Other(other),
        }
    }

    /// This mark's number.
    #[must_use]
    pub fn number(self) -> u8 {
        match self {
            Mark::Clean => 0,
            Mark::Rewritten => 1,
            Mark::Trial => 2,
            Mark::Rebuilt => 3,
            Mark::Faulty => 4,
            Mark::Other(number) => number,
        }
    }
}

/// The word that a report has for it: `storecheck`'s, and a [`Wear`]'s.
///
/// ```
/// let words = sudoku::Mark::ALL.map(|mark| mark.to_string());
/// assert_eq!(words, ["clean", "alone", "trial", "rebuilt", "faulty"]);
/// ```
///
/// [`Wear`]: crate::Wear
impl fmt::Display for Mark {
    fn fmt(&self, f: &mut fmt::Formatter<'_>) -> fmt::Result {
        let word = match self {
            Mark::Clean => "clean",
            Mark::Rewritten => "alone",
            Mark::Trial => "trial",
            Mark::Rebuilt => "rebuilt",
            Mark::Faulty => "faulty",
            Mark::Other(number) => return write!(f, "unknown mark {number}"),
        };
        f.pad(word)
    }
}
