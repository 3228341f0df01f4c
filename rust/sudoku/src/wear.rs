//! The wear report of a tour: what many repairs found, added up.

mod share;
mod shown;
mod text;

pub use share::{Percent, Share};
pub use text::TextError;

use crate::{Mark, Outcome, Refusal, Repaired, c};

// Where C has each number; the marks stand in the order of their numbers.
const STORES: usize = 0;
const LINES: usize = 1;
const FIRST_MARK: usize = 2;
const DONE: usize = 7;
const LEFT: usize = 8;
const DIFFERS: usize = 9;

/// What the repairs of many stores found, added up: stores and lines seen, the
/// lines for each mark, and the stores for each answer of a repair.
///
/// A value of this type is always a report: the lines for each mark add up to
/// the lines and the stores for each answer to the stores. Two reports are equal
/// if all their numbers are. They have no order of their own: how worn stores are
/// is compared by [`Wear::rebuilt_share`].
///
/// Shown with `{}` it is a small table for people:
///
/// ```
/// use sudoku::Wear;
/// let wear = Wear::from_numbers([3, 48, 39, 3, 2, 2, 2, 1, 1, 1])?;
/// assert_eq!(
///     wear.to_string(),
///     "\
/// 3 stores, 48 lines, 2 rebuilt (4.17 %)
/// lines   clean    39   81.25 %  correct as found
///         alone     3    6.25 %  rewritten, each by itself
///         trial     2    4.17 %  mended by trial
///         rebuilt   2    4.17 %  rebuilt from a row or column
///         faulty    2    4.17 %  given up
/// stores  done      1   33.33 %  every line is whole
///         left      1   33.33 %  faulty lines are left
///         differs   1   33.33 %  lines and tables differ: trust no line"
/// );
/// # Ok::<(), sudoku::Refusal>(())
/// ```
#[derive(Clone, Copy, Debug, Default, PartialEq, Eq, Hash)]
pub struct Wear {
    numbers: [u64; Wear::NUMBERS],
}

impl Wear {
    /// How many numbers a report is.
    pub const NUMBERS: usize = 10;

    /// The most stores of a report.
    pub const MOST_STORES: u64 = 1_000_000;

    /// The least number of lines of a store that is taken in.
    pub const LEAST_LINES: u64 = 4;

    /// The most lines of a store that is taken in.
    pub const MOST_LINES: u64 = 4_194_304;

    /// The empty report: nothing seen yet.
    #[must_use]
    pub const fn new() -> Wear {
        Wear {
            numbers: [0; Wear::NUMBERS],
        }
    }

    /// Takes in what a repair gave.
    ///
    /// ```
    /// use sudoku::{Mark, Outcome, Store, Wear};
    /// let mut wear = Wear::new();
    /// let mut store = Store::new(2, 2)?;
    /// wear.add(&store.repair())?;
    ///
    /// // Two bits of line 3 turn over: it is rebuilt.
    /// store.line_bytes_mut()[3 * sudoku::LINE_BYTES] ^= 3;
    /// wear.add(&store.repair())?;
    /// assert_eq!((wear.stores(), wear.lines()), (2, 8));
    /// assert_eq!(wear.lines_with(Mark::Clean), 7);
    /// assert_eq!(wear.lines_with(Mark::Rebuilt), 1);
    /// assert_eq!(wear.stores_with(Outcome::Done), 2);
    /// # Ok::<(), sudoku::Refusal>(())
    /// ```
    ///
    /// # Errors
    ///
    /// As [`Wear::add_result`]. Of what [`Store::repair`](crate::Store::repair)
    /// gives none is refused before the report has its million stores.
    pub fn add(&mut self, repaired: &Repaired) -> Result<(), Refusal> {
        let marks: Vec<u8> = repaired.marks.iter().map(|mark| mark.number()).collect();
        self.add_result(&marks, repaired.outcome.number())
    }

    /// Takes in a result by its numbers: a mark for each line and the answer, as
    /// [`c::repair`] hands them over.
    ///
    /// What [`c::read_one`] leaves is no result, but would be taken for one: the
    /// marks among its work buffers are zeros. So would the marks of a forecast.
    /// Add only what repair gave.
    ///
    /// ```
    /// use sudoku::{Refusal, Wear};
    /// let mut wear = Wear::new();
    /// wear.add_result(&[0, 0, 3, 4], 11)?;
    /// assert_eq!(wear.numbers(), [1, 4, 2, 0, 0, 1, 1, 0, 1, 0]);
    ///
    /// // A repair that was refused has no result.
    /// assert_eq!(wear.add_result(&[0; 4], 7), Err(Refusal::Wear));
    /// assert_eq!(wear.stores(), 1);
    /// # Ok::<(), Refusal>(())
    /// ```
    ///
    /// # Errors
    ///
    /// [`Refusal::Wear`] if there are [`Wear::MOST_STORES`] already, or the result
    /// isn't [`Wear::LEAST_LINES`] to [`Wear::MOST_LINES`] marks of 0 to 4 with
    /// answer 0, 11 or 12. The report is then as before.
    pub fn add_result(&mut self, marks: &[u8], answer: u32) -> Result<(), Refusal> {
        let answer = c::wear_add(&mut self.numbers, marks, answer);
        Refusal::check(answer, 0)
    }

    /// Stores seen.
    #[must_use]
    pub fn stores(&self) -> u64 {
        self.numbers[STORES]
    }

    /// Lines seen.
    #[must_use]
    pub fn lines(&self) -> u64 {
        self.numbers[LINES]
    }

    /// Lines with this mark; none with one that this crate doesn't know.
    #[must_use]
    pub fn lines_with(&self, mark: Mark) -> u64 {
        match mark {
            Mark::Other(_) => 0,
            known => self.numbers[FIRST_MARK + usize::from(known.number())],
        }
    }

    /// Stores whose repair had this outcome.
    #[must_use]
    pub fn stores_with(&self, outcome: Outcome) -> u64 {
        match outcome {
            Outcome::Done => self.numbers[DONE],
            Outcome::Left => self.numbers[LEFT],
            Outcome::Differs => self.numbers[DIFFERS],
        }
    }

    /// The share of rebuilt lines, to be compared with others.
    ///
    /// ```
    /// use std::cmp::Reverse;
    /// use sudoku::Wear;
    /// let unit = |marks: &[u8]| {
    ///     let mut wear = Wear::new();
    ///     wear.add_result(marks, 0).map(|()| wear)
    /// };
    /// let (fresh, worn, fair) = (unit(&[0; 4])?, unit(&[3, 3, 0, 0])?, unit(&[3, 0, 0, 0])?);
    ///
    /// // The most worn units first.
    /// let mut units = [fresh, worn, fair];
    /// units.sort_by_key(|wear| Reverse(wear.rebuilt_share()));
    /// assert_eq!(units, [worn, fair, fresh]);
    /// # Ok::<(), sudoku::Refusal>(())
    /// ```
    #[must_use]
    pub fn rebuilt_share(&self) -> Share {
        Share::of(*self)
    }

    /// The report that ten numbers are: stores, lines, lines with marks 0 to 4,
    /// stores with answers 0, 11 and 12.
    ///
    /// ```
    /// use sudoku::{Refusal, Wear};
    /// let wear = Wear::from_numbers([1, 4, 2, 0, 0, 1, 1, 0, 1, 0])?;
    /// assert_eq!((wear.stores(), wear.lines()), (1, 4));
    ///
    /// // The marks don't add up to the lines.
    /// let wrong = Wear::from_numbers([1, 5, 2, 0, 0, 1, 1, 0, 1, 0]);
    /// assert_eq!(wrong, Err(Refusal::Wear));
    /// # Ok::<(), Refusal>(())
    /// ```
    ///
    /// # Errors
    ///
    /// [`Refusal::Wear`] if marks or answers don't add up to the lines or stores,
    /// or there are more than [`Wear::MOST_STORES`], or more than
    /// [`Wear::MOST_LINES`] lines for each store.
    pub fn from_numbers(numbers: [u64; Wear::NUMBERS]) -> Result<Wear, Refusal> {
        // Compared with themselves they are equal, or refused as no report.
        let (answer, _) = c::wear_compare(&numbers, &numbers);
        Refusal::check(answer, 0)?;
        Ok(Wear { numbers })
    }

    /// The ten numbers, as [`Wear::from_numbers`] takes them.
    #[must_use]
    pub fn numbers(&self) -> [u64; Wear::NUMBERS] {
        self.numbers
    }
}

impl TryFrom<[u64; Wear::NUMBERS]> for Wear {
    type Error = Refusal;

    fn try_from(numbers: [u64; Wear::NUMBERS]) -> Result<Wear, Refusal> {
        Wear::from_numbers(numbers)
    }
}

impl From<Wear> for [u64; Wear::NUMBERS] {
    fn from(wear: Wear) -> [u64; Wear::NUMBERS] {
        wear.numbers
    }
}
