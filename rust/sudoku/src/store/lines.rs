//! The lines of a store, one after the other.

use std::iter::FusedIterator;
use std::{fmt, slice};

use crate::{LINE_BYTES, Read, Refusal, Store, read_line};

/// The lines of a store as they stand, row after row: [`Store::lines`].
#[must_use = "iterators do nothing unless they are consumed"]
#[derive(Clone)]
pub struct Lines<'a> {
    left: slice::Iter<'a, [u8; LINE_BYTES]>,
}

/// How many lines are left.
impl fmt::Debug for Lines<'_> {
    fn fmt(&self, f: &mut fmt::Formatter<'_>) -> fmt::Result {
        f.debug_struct("Lines")
            .field("left", &self.left.len())
            .finish_non_exhaustive()
    }
}

impl<'a> Iterator for Lines<'a> {
    type Item = &'a [u8; LINE_BYTES];

    fn next(&mut self) -> Option<Self::Item> {
        self.left.next()
    }

    fn size_hint(&self) -> (usize, Option<usize>) {
        self.left.size_hint()
    }

    fn nth(&mut self, n: usize) -> Option<Self::Item> {
        self.left.nth(n)
    }
}

impl DoubleEndedIterator for Lines<'_> {
    fn next_back(&mut self) -> Option<Self::Item> {
        self.left.next_back()
    }
}

impl ExactSizeIterator for Lines<'_> {}

impl FusedIterator for Lines<'_> {}

impl<'a> IntoIterator for &'a Store {
    type Item = &'a [u8; LINE_BYTES];
    type IntoIter = Lines<'a>;

    fn into_iter(self) -> Lines<'a> {
        self.lines()
    }
}

impl Store {
    /// The lines as they stand, row after row.
    ///
    /// ```
    /// use sudoku::Store;
    /// let store = Store::from_data(2, 2, &[[1; 64], [2; 64], [3; 64], [4; 64]])?;
    /// let first_bytes: Vec<u8> = store.lines().map(|line| line[0]).collect();
    /// assert_eq!(first_bytes, [1, 2, 3, 4]);
    /// assert_eq!(store.lines().len(), store.count());
    /// # Ok::<(), sudoku::Refusal>(())
    /// ```
    pub fn lines(&self) -> Lines<'_> {
        Lines {
            left: self.line_bytes().as_chunks().0.iter(),
        }
    }

    /// Each line as it reads alone, row after row.
    ///
    /// ```
    /// use sudoku::{Mark, Store};
    /// let mut store = Store::new(2, 2)?;
    /// store.line_bytes_mut()[3 * sudoku::LINE_BYTES] ^= 1;
    /// let marks: Vec<Mark> = store.reads().map(|read| read.mark).collect();
    /// assert_eq!(marks, [Mark::Clean, Mark::Clean, Mark::Clean, Mark::Rewritten]);
    /// # Ok::<(), sudoku::Refusal>(())
    /// ```
    pub fn reads(
        &self,
    ) -> impl ExactSizeIterator<Item = Read> + DoubleEndedIterator + FusedIterator + '_ {
        self.lines().map(read_line)
    }

    /// The numbers of the lines that are faulty when read alone, rising: what
    /// [`forecast()`](crate::forecast()) takes.
    ///
    /// ```
    /// use sudoku::Store;
    /// let mut store = Store::new(2, 2)?;
    /// store.line_bytes_mut()[2 * sudoku::LINE_BYTES] ^= 3;
    /// assert_eq!(store.faulty(), [2]);
    /// # Ok::<(), sudoku::Refusal>(())
    /// ```
    #[must_use]
    pub fn faulty(&self) -> Vec<usize> {
        let reads = self.reads().enumerate();
        let faulty = reads.filter(|(_, read)| read.is_faulty());
        faulty.map(|(n, _)| n).collect()
    }

    /// The bytes of line `n`, as they stand.
    ///
    /// # Errors
    ///
    /// [`Refusal::Number`] if there is no such line.
    pub fn line(&self, n: usize) -> Result<&[u8; LINE_BYTES], Refusal> {
        self.lines().nth(n).ok_or(Refusal::Number)
    }

    /// Line `n` as it reads alone. A faulty line is no error here: its mark
    /// says so. [`Store::read_one`] goes on where it is faulty.
    ///
    /// # Errors
    ///
    /// [`Refusal::Number`] if there is no such line.
    pub fn read(&self, n: usize) -> Result<Read, Refusal> {
        self.line(n).map(read_line)
    }
}
