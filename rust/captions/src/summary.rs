//! What a check found, in words.

use std::fmt::{self, Display, Formatter};

use sudoku::{Mark, Repaired};

use crate::marks::{look, meaning};

/// The least width of the column of numbers.
const LEAST_WIDTH: usize = 5;

/// A store's name, its sides, the captions for each mark, the passes and the
/// answer.
pub struct Summary<'a, N> {
    /// What the store is called.
    pub name: N,
    /// What repair gave.
    pub repaired: &'a Repaired,
}

impl<N: Display> Display for Summary<'_, N> {
    fn fmt(&self, f: &mut Formatter<'_>) -> fmt::Result {
        let (name, repaired) = (&self.name, self.repaired);
        let store = &repaired.store;
        let (rows, columns, captions) = (store.rows(), store.columns(), store.count());
        writeln!(
            f,
            "{name}: {rows} rows and {columns} columns, {captions} captions"
        )?;
        let width = LEAST_WIDTH.max(captions.to_string().len() + 1);
        for mark in Mark::ALL {
            let (count, says) = (repaired.counts.of(mark), look(mark).says);
            writeln!(f, "  {mark:7}{count:width$}  {says}")?;
        }
        writeln!(f, "  passes {:width$}", repaired.passes)?;
        let outcome = repaired.outcome;
        let (answer, says) = (outcome.number(), meaning(outcome));
        writeln!(f, "  answer {answer:width$}  {says}")
    }
}

#[cfg(test)]
mod tests {
    use super::*;
    use sudoku::{Refusal, Store};

    #[test]
    fn a_check_is_told_in_words() -> Result<(), Refusal> {
        let mut store = Store::new(6, 6)?;
        // One bit of line 0, and two of each of lines 8 and 20.
        store.line_bytes_mut()[0] ^= 1;
        store.line_bytes_mut()[8 * sudoku::LINE_BYTES] ^= 3;
        store.line_bytes_mut()[20 * sudoku::LINE_BYTES] ^= 3;
        let repaired = store.repair();
        let summary = Summary {
            name: "show.store",
            repaired: &repaired,
        };
        assert_eq!(
            summary.to_string(),
            "\
show.store: 6 rows and 6 columns, 36 captions
  clean     33  correct as found
  alone      1  one damaged bit or Hamming bits: rewritten by itself
  trial      0  mended by trial against a row or column
  rebuilt    2  rebuilt from the rest of a row or column
  faulty     0  lost
  passes     1
  answer     0  every caption is whole
"
        );
        Ok(())
    }
}
