//! What repair gives.

use std::fmt;

use crate::{DATA_BYTES, Mark, NotWhole, Outcome, Store};

/// What repair gives: [`Store::repair`].
#[must_use]
#[derive(Clone, PartialEq, Eq)]
pub struct Repaired {
    /// Look at it before using a line: after [`Outcome::Differs`] none is to be
    /// trusted.
    pub outcome: Outcome,
    /// The passes over rows and columns: 0 if every line read alone.
    pub passes: u64,
    /// The store with its lines and both tables as repair hands them over. Of
    /// the parity lines, those accepted are as read; the others are as found
    /// after [`Outcome::Left`], and otherwise made afresh.
    pub store: Store,
    /// What happened to each line.
    pub marks: Vec<Mark>,
    /// How many lines have each mark.
    pub counts: Counts,
}

/// All but the marks of the single lines, of which there may be many.
impl fmt::Debug for Repaired {
    fn fmt(&self, f: &mut fmt::Formatter<'_>) -> fmt::Result {
        f.debug_struct("Repaired")
            .field("outcome", &self.outcome)
            .field("passes", &self.passes)
            .field("store", &self.store)
            .field("counts", &self.counts)
            .finish_non_exhaustive()
    }
}

impl Repaired {
    /// Whether every line is whole, and lines and tables agree.
    #[must_use]
    pub fn is_whole(&self) -> bool {
        self.outcome.is_done()
    }

    /// The repaired store, if it is whole.
    ///
    /// ```
    /// use sudoku::{NotWhole, Store};
    /// let written = Store::new(2, 2)?;
    /// let mut store = written.clone();
    /// store.line_bytes_mut()[0] ^= 3;
    /// assert_eq!(store.repair().whole(), Ok(written));
    ///
    /// // All four lines are hurt alike: nothing can mend them.
    /// for n in 1..4 {
    ///     store.line_bytes_mut()[n * sudoku::LINE_BYTES] ^= 3;
    /// }
    /// assert_eq!(store.repair().whole(), Err(NotWhole::Left { lines: 4 }));
    /// # Ok::<(), sudoku::Refusal>(())
    /// ```
    ///
    /// # Errors
    ///
    /// [`NotWhole::Left`] if faulty lines are left, [`NotWhole::Differs`] if
    /// lines and tables differ.
    pub fn whole(self) -> Result<Store, NotWhole> {
        match self.outcome {
            Outcome::Done => Ok(self.store),
            Outcome::Left => Err(NotWhole::Left {
                lines: self.lost().count(),
            }),
            Outcome::Differs => Err(NotWhole::Differs),
        }
    }

    /// The numbers of the lines that stay faulty, rising.
    pub fn lost(&self) -> impl Iterator<Item = usize> + '_ {
        let lines = self.marks.iter().enumerate();
        let lost = lines.filter(|&(_, &mark)| mark == Mark::Faulty);
        lost.map(|(n, _)| n)
    }

    /// The data of line `n`; `None` if it stays faulty, or there is no such line.
    ///
    /// After [`Outcome::Differs`] a line given here may still be wrong.
    ///
    /// ```
    /// use sudoku::Store;
    /// let mut store = Store::from_data(2, 2, &[[1; 64], [2; 64], [3; 64], [4; 64]])?;
    ///
    /// // Line 0, its row's parity line and its column's are hurt.
    /// store.line_bytes_mut()[0] ^= 3;
    /// store.row_table_mut()[0] ^= 3;
    /// store.column_table_mut()[0] ^= 3;
    /// let repaired = store.repair();
    /// assert_eq!(repaired.lost().collect::<Vec<_>>(), [0]);
    /// assert_eq!(repaired.data(0), None);
    /// assert_eq!(repaired.data(3), Some([4; 64]));
    /// assert_eq!(repaired.data(4), None);
    /// # Ok::<(), sudoku::Refusal>(())
    /// ```
    #[must_use]
    pub fn data(&self, n: usize) -> Option<[u8; DATA_BYTES]> {
        match self.marks.get(n)? {
            Mark::Faulty => None,
            _ => self.store.line(n).ok()?.first_chunk().copied(),
        }
    }
}

/// How many lines of a repaired store have each mark.
///
/// ```
/// use sudoku::{Mark, Store};
/// let mut store = Store::new(2, 3)?;
/// store.line_bytes_mut()[0] ^= 3;
/// let counts = store.repair().counts;
/// assert_eq!(counts.of(Mark::Rebuilt), 1);
/// assert_eq!(counts.of(Mark::Clean), 5);
/// assert_eq!(counts.total(), 6);
/// # Ok::<(), sudoku::Refusal>(())
/// ```
#[derive(Clone, Copy, Debug, Default, PartialEq, Eq, Hash)]
pub struct Counts {
    /// In the order of the marks' numbers.
    lines: [u64; Mark::ALL.len()],
}

impl Counts {
    /// Those of marks 0 to 4.
    pub(crate) fn of_marks(lines: [u64; Mark::ALL.len()]) -> Counts {
        Counts { lines }
    }

    /// Lines with this mark; none with one that this crate doesn't know.
    #[must_use]
    pub fn of(&self, mark: Mark) -> u64 {
        match mark {
            Mark::Other(_) => 0,
            known => self.lines[usize::from(known.number())],
        }
    }

    /// All lines.
    #[must_use]
    pub fn total(&self) -> u64 {
        self.lines.iter().sum()
    }
}
