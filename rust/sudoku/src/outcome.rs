//! What a repair answers.

use std::error::Error;
use std::fmt;

/// What a repair answers. Look at it before using a line.
#[must_use]
#[derive(Clone, Copy, Debug, PartialEq, Eq, Hash)]
pub enum Outcome {
    /// 0: every line is whole, and lines and tables agree.
    Done,
    /// 11: faulty lines are left after the last pass. They are given as found.
    Left,
    /// 12: no line is faulty, but some parity line that was accepted differs
    /// from that of the repaired lines. Trust no line: some may be wrong, and
    /// nothing tells which.
    Differs,
}

impl Outcome {
    /// The three outcomes, in the order of their numbers.
    pub const ALL: [Outcome; 3] = [Outcome::Done, Outcome::Left, Outcome::Differs];

    /// The outcome with this number, if there is one.
    ///
    /// ```
    /// use sudoku::Outcome;
    /// assert_eq!(Outcome::from_number(11), Some(Outcome::Left));
    /// assert_eq!(Outcome::Left.number(), 11);
    /// assert_eq!(Outcome::from_number(10), None);
    /// ```
    #[must_use]
    pub fn from_number(number: u32) -> Option<Outcome> {
        Outcome::ALL.into_iter().find(|of| of.number() == number)
    }

    /// This outcome's number.
    #[must_use]
    pub fn number(self) -> u32 {
        match self {
            Outcome::Done => 0,
            Outcome::Left => 11,
            Outcome::Differs => 12,
        }
    }

    /// Whether this is [`Outcome::Done`].
    #[must_use]
    pub fn is_done(self) -> bool {
        self == Outcome::Done
    }
}

/// What it says of the store.
///
/// ```
/// assert_eq!(sudoku::Outcome::Done.to_string(), "every line is whole");
/// ```
impl fmt::Display for Outcome {
    fn fmt(&self, f: &mut fmt::Formatter<'_>) -> fmt::Result {
        f.pad(match self {
            Outcome::Done => "every line is whole",
            Outcome::Left => "faulty lines are left",
            Outcome::Differs => "lines and tables differ: trust no line",
        })
    }
}

/// Why what repair gives isn't whole.
#[derive(Clone, Copy, Debug, PartialEq, Eq, Hash)]
pub enum NotWhole {
    /// So many lines are left faulty.
    Left {
        /// How many: 1 where a single line was wanted.
        lines: usize,
    },
    /// Lines and tables differ: no line is to be trusted.
    Differs,
}

/// ```
/// use sudoku::NotWhole;
/// assert_eq!(NotWhole::Left { lines: 1 }.to_string(), "1 line is left faulty");
/// assert_eq!(NotWhole::Left { lines: 4 }.to_string(), "4 lines are left faulty");
/// ```
impl fmt::Display for NotWhole {
    fn fmt(&self, f: &mut fmt::Formatter<'_>) -> fmt::Result {
        match self {
            NotWhole::Left { lines: 1 } => f.write_str("1 line is left faulty"),
            NotWhole::Left { lines } => write!(f, "{lines} lines are left faulty"),
            NotWhole::Differs => Outcome::Differs.fmt(f),
        }
    }
}

impl Error for NotWhole {}
