//! Steps of a read of one line.

use std::fmt;

/// The last step taken for one line that was wanted: each is taken only where
/// the one before left the line faulty.
#[derive(Clone, Copy, Debug, PartialEq, Eq, Hash)]
pub enum Step {
    /// 1: the line was read alone.
    Alone,
    /// 2: its row was visited.
    Row,
    /// 3: the whole store was repaired.
    Repair,
    /// A number that this crate doesn't know.
    Other(u32),
}

impl Step {
    /// The step with this number.
    ///
    /// ```
    /// use sudoku::Step;
    /// assert_eq!(Step::from_number(2), Step::Row);
    /// assert_eq!(Step::from_number(2).number(), 2);
    /// ```
    #[must_use]
    pub fn from_number(number: u32) -> Step {
        match number {
            1 => Step::Alone,
            2 => Step::Row,
            3 => Step::Repair,
            other => Step::Other(other),
        }
    }

    /// This step's number.
    #[must_use]
    pub fn number(self) -> u32 {
        match self {
            Step::Alone => 1,
            Step::Row => 2,
            Step::Repair => 3,
            Step::Other(number) => number,
        }
    }
}

/// ```
/// use sudoku::Step;
/// let words = [Step::Alone, Step::Row, Step::Repair].map(|step| step.to_string());
/// assert_eq!(words, ["alone", "row", "repair"]);
/// ```
impl fmt::Display for Step {
    fn fmt(&self, f: &mut fmt::Formatter<'_>) -> fmt::Result {
        let word = match self {
            Step::Alone => "alone",
            Step::Row => "row",
            Step::Repair => "repair",
            Step::Other(number) => return write!(f, "unknown step {number}"),
        };
        f.pad(word)
    }
}
