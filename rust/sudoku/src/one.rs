//! One line that was wanted.

use crate::{DATA_BYTES, NotWhole, Read, Step};

/// One line that was wanted: what [`Store::read_one`](crate::Store::read_one)
/// gives.
#[must_use]
#[derive(Clone, Copy, Debug, PartialEq, Eq)]
pub struct One {
    /// The line and its mark: those that a repair of the whole store gives.
    pub read: Read,
    /// The last step taken for it.
    pub step: Step,
}

impl One {
    /// The line's 64 data bytes, unless it stays faulty: no damaged text is
    /// shown by mistake.
    ///
    /// ```
    /// use sudoku::{NotWhole, Store};
    /// let mut store = Store::new(2, 2)?;
    ///
    /// // All four lines are hurt alike: nothing can mend them.
    /// for n in 0..4 {
    ///     store.line_bytes_mut()[n * sudoku::LINE_BYTES] ^= 3;
    /// }
    /// let one = store.read_one(3)?;
    /// assert_eq!(one.whole(), Err(NotWhole::Left { lines: 1 }));
    /// assert_eq!(one.read.data()[0], 3);
    /// # Ok::<(), sudoku::Refusal>(())
    /// ```
    ///
    /// # Errors
    ///
    /// [`NotWhole::Left`] if the line stays faulty. As found it stands in
    /// `read`.
    pub fn whole(&self) -> Result<[u8; DATA_BYTES], NotWhole> {
        self.read.whole().ok_or(NotWhole::Left { lines: 1 })
    }
}
