//! A whole store repaired, and one line wanted of it.

use crate::{
    Counts, HEADER_BYTES, LINE_BYTES, Mark, One, Outcome, Read, Refusal, Repaired, Step, Store, c,
};

impl Store {
    /// A store of the same sides, for repair to write.
    fn room(&self) -> Store {
        let mut bytes = vec![0; self.bytes.len()];
        bytes[..HEADER_BYTES].copy_from_slice(&self.bytes[..HEADER_BYTES]);
        Store { bytes, ..*self }
    }

    /// Where repair writes lines and tables of this store, and these marks.
    fn out<'a>(&'a mut self, marks: &'a mut [u8]) -> c::Out<'a> {
        let parts = self.parts_mut();
        c::Out {
            lines: parts.lines,
            marks,
            row_table: parts.row_table,
            column_table: parts.column_table,
        }
    }

    /// Repairs lines and tables; this store stays as it is.
    ///
    /// Every parity line is read alone first. One that is faulty can't help to
    /// mend lines; it is made afresh if no line is left faulty.
    ///
    /// Lines that stay faulty ([`Outcome::Left`]) and lines that don't agree
    /// with the tables ([`Outcome::Differs`]) are no errors here: the outcome
    /// and the marks say so. [`Repaired::whole`] makes errors of them.
    ///
    /// ```
    /// use sudoku::{Mark, Outcome, Store};
    /// let written = Store::new(2, 2)?;
    ///
    /// // Line 0 and its row's parity line are hurt: its column mends the line,
    /// // and the parity line is made afresh.
    /// let mut store = written.clone();
    /// store.line_bytes_mut()[0] ^= 3;
    /// store.row_table_mut()[0] ^= 3;
    /// let repaired = store.repair();
    /// assert_eq!(repaired.outcome, Outcome::Done);
    /// assert_eq!(repaired.marks[0], Mark::Rebuilt);
    /// assert_eq!(repaired.store, written);
    ///
    /// // With its column's parity line hurt too, nothing can mend the line.
    /// store.column_table_mut()[0] ^= 3;
    /// let repaired = store.repair();
    /// assert_eq!(repaired.outcome, Outcome::Left);
    /// assert_eq!(repaired.marks[0], Mark::Faulty);
    /// assert_eq!(repaired.store, store);
    /// # Ok::<(), sudoku::Refusal>(())
    /// ```
    pub fn repair(&self) -> Repaired {
        let (mut store, mut marks) = (self.room(), vec![0; self.count()]);
        let (answer, check) = c::check_file(&self.bytes, store.out(&mut marks));
        Repaired {
            // A store's bytes are never refused. If they were, nothing would
            // have been written, and no line is to be trusted.
            outcome: Outcome::from_number(answer).unwrap_or(Outcome::Differs),
            passes: check.passes,
            store,
            marks: marks.into_iter().map(Mark::from_number).collect(),
            counts: Counts::of_marks(check.lines),
        }
    }

    /// Line `n` as a repair of the whole store gives it, by as few steps as that
    /// takes: the line is read alone; if it is faulty, its row is visited as
    /// repair does; and only if it still is, the whole store is repaired. This
    /// store stays as it is.
    ///
    /// A line that nothing can mend is no error here: its mark says so, and it
    /// is as found. [`One::whole`] makes an error of it. That other lines stay
    /// faulty, or that lines don't agree with the tables, is no error either: of
    /// that only [`Store::repair`] tells.
    ///
    /// Each call allocates room for a repair, as much as the store itself.
    /// Where many lines are wanted, [`c::read_one`] takes buffers that are kept.
    ///
    /// ```
    /// use sudoku::{Mark, Refusal, Step, Store};
    /// let captions = [[b'a'; 64], [b'b'; 64], [b'c'; 64], [b'd'; 64]];
    /// let mut store = Store::from_data(2, 2, &captions)?;
    ///
    /// // Two bits of line 3 turn over: its row rebuilds it.
    /// store.line_bytes_mut()[3 * sudoku::LINE_BYTES] ^= 3;
    /// let one = store.read_one(3)?;
    /// assert_eq!((one.step, one.read.mark), (Step::Row, Mark::Rebuilt));
    /// assert_eq!(one.whole(), Ok(captions[3]));
    ///
    /// // So do the same two of line 2: now only the columns tell them apart.
    /// store.line_bytes_mut()[2 * sudoku::LINE_BYTES] ^= 3;
    /// let one = store.read_one(3)?;
    /// assert_eq!((one.step, one.read.mark), (Step::Repair, Mark::Rebuilt));
    /// assert_eq!(one.whole(), Ok(captions[3]));
    ///
    /// // The lines above them need no more than a reading.
    /// assert_eq!(store.read_one(0)?.step, Step::Alone);
    /// assert_eq!(store.read_one(4), Err(Refusal::Number));
    /// # Ok::<(), Refusal>(())
    /// ```
    ///
    /// # Errors
    ///
    /// [`Refusal::Number`] if there is no such line.
    pub fn read_one(&self, n: usize) -> Result<One, Refusal> {
        let (mut room, mut marks) = (self.room(), vec![0; self.count()]);
        let work = room.out(&mut marks);
        let parts = self.parts();
        let mut line = [0; LINE_BYTES];
        let (answer, mark, step) = c::read_one(
            self.rows,
            self.columns,
            parts.lines,
            parts.row_table,
            parts.column_table,
            n,
            work,
            &mut line,
        );
        Refusal::check(answer, 0)?;
        let mark = Mark::from_number(mark);
        Ok(One {
            read: Read { line, mark },
            step: Step::from_number(step),
        })
    }
}
