//! What rebuilding alone would save of a store, from its list of faulty lines.

use crate::{Mark, Refusal, c, count_of};

/// What rebuilding alone would make of some faulty lines: which of them it saves,
/// which are lost, and in how many passes.
///
/// The lost lines are a bound. Of a store whose faulty lines are all named, perhaps
/// others besides, and whose parity lines are all accepted, [`Store::repair`]
/// leaves no line faulty but lost ones; it may save some of these by trial. If just
/// the faulty lines are named and no trial takes (no line has [`Mark::Trial`]),
/// repair gives exactly these marks, but for [`Mark::Rewritten`] where a whole line
/// was rewritten, and these passes. Where some parity line isn't accepted, repair
/// may leave more.
///
/// [`Store::repair`]: crate::Store::repair
#[must_use]
#[derive(Clone, Debug, PartialEq, Eq)]
pub struct Forecast {
    /// A mark for each line: [`Mark::Clean`] if the list doesn't name it,
    /// otherwise [`Mark::Rebuilt`] or [`Mark::Faulty`].
    pub marks: Vec<Mark>,
    /// The passes over rows and columns: 0 if no line is faulty. One that
    /// rebuilds nothing is the last, and counts. With trials repair may take more
    /// of them or fewer.
    pub passes: u64,
}

impl Forecast {
    /// The numbers of the lines that stay faulty, rising: the largest part of the
    /// named lines of which no row and no column holds exactly one.
    #[must_use]
    pub fn lost(&self) -> Vec<usize> {
        let lines = self.marks.iter().enumerate();
        let lost = lines.filter(|&(_, &mark)| mark == Mark::Faulty);
        lost.map(|(n, _)| n).collect()
    }

    /// Whether no line stays faulty.
    ///
    /// ```
    /// use sudoku::forecast;
    ///
    /// // Three corners of a square, and all four.
    /// assert!(forecast(9, 9, &[10, 15, 64])?.saves_all());
    /// assert!(!forecast(9, 9, &[10, 15, 64, 69])?.saves_all());
    /// # Ok::<(), sudoku::Refusal>(())
    /// ```
    #[must_use]
    pub fn saves_all(&self) -> bool {
        !self.marks.contains(&Mark::Faulty)
    }
}

/// Works out what rebuilding alone would save of a store with these faulty lines,
/// without any line's bytes: no trial takes, and all parity lines are usable.
///
/// `faulty` has the numbers of the lines that can't be read alone, in any order;
/// one that stands there twice counts once. With further lines named besides, it
/// loses at least the same lines: where some are named needlessly, it is still a
/// bound.
///
/// ```
/// use sudoku::{Mark, Refusal, forecast};
///
/// // A corner of three lines: a row and a column with one faulty line each open
/// // it.
/// let corner = forecast(3, 4, &[0, 1, 4])?;
/// assert_eq!((corner.lost(), corner.passes), (vec![], 1));
///
/// // With the fourth line it is closed. Line 6 is still rebuilt by its column; a
/// // second pass finds nothing more to do.
/// let ring = forecast(3, 4, &[0, 1, 4, 5, 6])?;
/// assert_eq!((ring.lost(), ring.passes), (vec![0, 1, 4, 5], 2));
/// assert_eq!(ring.marks[6], Mark::Rebuilt);
/// assert_eq!(ring.marks[7], Mark::Clean);
///
/// assert_eq!(forecast(3, 4, &[12]), Err(Refusal::Number));
/// assert_eq!(forecast(3, 513, &[]), Err(Refusal::Sides));
/// # Ok::<(), Refusal>(())
/// ```
///
/// # Errors
///
/// [`Refusal::Sides`] if rows or columns lie outside 2 to 512; [`Refusal::Number`]
/// if there is no line with one of these numbers.
pub fn forecast(rows: usize, columns: usize, faulty: &[usize]) -> Result<Forecast, Refusal> {
    let count = count_of(rows, columns)?;
    let mut named = vec![0; count];
    for &n in faulty {
        *named.get_mut(n).ok_or(Refusal::Number)? = 1;
    }
    let mut marks = vec![0; count];
    let (answer, passes) = c::forecast(rows, columns, &named, &mut marks);
    // With these sides and lengths it isn't refused; if it were, its marks would
    // say that nothing is lost.
    Refusal::check(answer, 0)?;
    Ok(Forecast {
        marks: marks.into_iter().map(Mark::from_number).collect(),
        passes,
    })
}
