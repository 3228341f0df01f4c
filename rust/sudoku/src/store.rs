//! A store: its lines and both parity tables, in the bytes of its file.

mod file;
mod lines;
mod repair;

pub use lines::Lines;

use std::fmt;

use crate::{DATA_BYTES, HEADER_BYTES, LINE_BYTES, Refusal, c, count_of, write_line};

/// Rows × columns of lines, and a parity line for each row and each column.
///
/// A store holds the bytes of its file, header first, so that reading and
/// writing one copies nothing. Its sides and lengths are right from the start and
/// stay so. The bytes of lines and tables may be anything:
/// [`Store::line_bytes_mut`] and the like lend them out, as memory that may get
/// damaged.
#[derive(Clone, PartialEq, Eq)]
pub struct Store {
    rows: usize,
    columns: usize,
    /// The file: the header that these sides require, lines, row table and
    /// column table.
    bytes: Vec<u8>,
}

/// Its sides and how many bytes it has, which may be millions.
///
/// ```
/// let store = sudoku::Store::new(2, 3)?;
/// assert_eq!(format!("{store:?}"), "Store { rows: 2, columns: 3, bytes: 798, .. }");
/// # Ok::<(), sudoku::Refusal>(())
/// ```
impl fmt::Debug for Store {
    fn fmt(&self, f: &mut fmt::Formatter<'_>) -> fmt::Result {
        f.debug_struct("Store")
            .field("rows", &self.rows)
            .field("columns", &self.columns)
            .field("bytes", &self.bytes.len())
            .finish_non_exhaustive()
    }
}

/// The parts of a store file.
struct Parts<T> {
    lines: T,
    row_table: T,
    column_table: T,
}

impl Store {
    /// A store of zero data. Its lines and tables are zero bytes, and it is a
    /// valid store.
    ///
    /// ```
    /// use sudoku::{Refusal, Store};
    /// let store = Store::new(2, 512)?;
    /// assert_eq!(store.line_bytes().len(), 2 * 512 * 70);
    /// assert_eq!(Store::new(1, 512), Err(Refusal::Sides));
    /// assert_eq!(Store::new(2, 513), Err(Refusal::Sides));
    /// # Ok::<(), Refusal>(())
    /// ```
    ///
    /// # Errors
    ///
    /// [`Refusal::Sides`] if rows or columns lie outside 2 to 512.
    pub fn new(rows: usize, columns: usize) -> Result<Store, Refusal> {
        let lines = count_of(rows, columns)? + rows + columns;
        // The line of zero data is zero, and so are its parity lines.
        let mut bytes = vec![0; HEADER_BYTES + lines * LINE_BYTES];
        let answer = c::write_header(rows, columns, &mut bytes[..HEADER_BYTES]);
        Refusal::check(answer, 0)?;
        Ok(Store {
            rows,
            columns,
            bytes,
        })
    }

    /// A store written from data: row after row, 64 bytes for each line.
    ///
    /// ```
    /// use sudoku::{Refusal, Store};
    /// let data = [[1; 64], [2; 64], [3; 64], [4; 64]];
    /// let store = Store::from_data(2, 2, &data)?;
    /// assert_eq!(store.read(2)?.data(), [3; 64]);
    /// assert_eq!(Store::from_data(2, 3, &data), Err(Refusal::Buffer));
    /// # Ok::<(), Refusal>(())
    /// ```
    ///
    /// # Errors
    ///
    /// [`Refusal::Sides`]; [`Refusal::Buffer`] if there aren't data for exactly
    /// rows × columns lines.
    pub fn from_data(
        rows: usize,
        columns: usize,
        data: &[[u8; DATA_BYTES]],
    ) -> Result<Store, Refusal> {
        if data.len() != count_of(rows, columns)? {
            return Err(Refusal::Buffer);
        }
        let mut store = Store::new(rows, columns)?;
        let lines = store.line_bytes_mut().as_chunks_mut().0;
        for (line, data) in lines.iter_mut().zip(data) {
            *line = write_line(data);
        }
        store.make_tables()?;
        Ok(store)
    }

    /// A store of these bytes, damaged or not.
    ///
    /// ```
    /// use sudoku::{Refusal, Store};
    /// let store = Store::from_parts(2, 3, &[0; 420], &[0; 140], &[0; 210])?;
    /// assert_eq!(store, Store::new(2, 3)?);
    /// let short = Store::from_parts(2, 3, &[0; 420], &[0; 140], &[0; 140]);
    /// assert_eq!(short, Err(Refusal::Table));
    /// # Ok::<(), Refusal>(())
    /// ```
    ///
    /// # Errors
    ///
    /// [`Refusal::Sides`], [`Refusal::Lines`] or [`Refusal::Table`], the first
    /// that fits.
    pub fn from_parts(
        rows: usize,
        columns: usize,
        lines: &[u8],
        row_table: &[u8],
        column_table: &[u8],
    ) -> Result<Store, Refusal> {
        let mut store = Store::new(rows, columns)?;
        let parts = store.parts_mut();
        if lines.len() != parts.lines.len() {
            return Err(Refusal::Lines);
        }
        if row_table.len() != parts.row_table.len()
            || column_table.len() != parts.column_table.len()
        {
            return Err(Refusal::Table);
        }
        parts.lines.copy_from_slice(lines);
        parts.row_table.copy_from_slice(row_table);
        parts.column_table.copy_from_slice(column_table);
        Ok(store)
    }

    fn parts(&self) -> Parts<&[u8]> {
        let (lines, tables) = self.bytes[HEADER_BYTES..].split_at(self.count() * LINE_BYTES);
        let (row_table, column_table) = tables.split_at(self.rows * LINE_BYTES);
        Parts {
            lines,
            row_table,
            column_table,
        }
    }

    fn parts_mut(&mut self) -> Parts<&mut [u8]> {
        let (lines, rows) = (self.count() * LINE_BYTES, self.rows * LINE_BYTES);
        let (lines, tables) = self.bytes[HEADER_BYTES..].split_at_mut(lines);
        let (row_table, column_table) = tables.split_at_mut(rows);
        Parts {
            lines,
            row_table,
            column_table,
        }
    }

    /// The rows.
    #[must_use]
    pub fn rows(&self) -> usize {
        self.rows
    }

    /// The columns.
    #[must_use]
    pub fn columns(&self) -> usize {
        self.columns
    }

    /// How many lines there are.
    #[must_use]
    pub fn count(&self) -> usize {
        self.rows * self.columns
    }

    /// The bytes of all lines, row after row.
    #[must_use]
    pub fn line_bytes(&self) -> &[u8] {
        self.parts().lines
    }

    /// The same, to be changed.
    #[must_use]
    pub fn line_bytes_mut(&mut self) -> &mut [u8] {
        self.parts_mut().lines
    }

    /// The parity lines of the rows.
    #[must_use]
    pub fn row_table(&self) -> &[u8] {
        self.parts().row_table
    }

    /// The same, to be changed.
    #[must_use]
    pub fn row_table_mut(&mut self) -> &mut [u8] {
        self.parts_mut().row_table
    }

    /// The parity lines of the columns.
    #[must_use]
    pub fn column_table(&self) -> &[u8] {
        self.parts().column_table
    }

    /// The same, to be changed.
    #[must_use]
    pub fn column_table_mut(&mut self) -> &mut [u8] {
        self.parts_mut().column_table
    }

    /// Makes both tables from the lines, each as it reads alone. The lines then
    /// count as written, right or wrong: tables made anew hide what
    /// [`Outcome::Differs`](crate::Outcome::Differs) tells.
    ///
    /// # Errors
    ///
    /// [`Refusal::Faulty`] if some line is faulty; the tables are then as
    /// before.
    pub fn make_tables(&mut self) -> Result<(), Refusal> {
        let (rows, columns) = (self.rows, self.columns);
        let parts = self.parts_mut();
        let (row_table, column_table) = (parts.row_table, parts.column_table);
        let answer = c::make_tables(rows, columns, parts.lines, row_table, column_table);
        Refusal::check(answer, 0)
    }

    /// Writes line `n` anew from 64 data bytes, and its two parity lines with
    /// it.
    ///
    /// ```
    /// use sudoku::{Refusal, Store};
    /// let mut store = Store::new(4, 4)?;
    /// store.change(5, &[b'x'; 64])?;
    /// assert_eq!(store.read(5)?.data(), [b'x'; 64]);
    /// assert_eq!(store.change(16, &[0; 64]), Err(Refusal::Number));
    /// # Ok::<(), Refusal>(())
    /// ```
    ///
    /// # Errors
    ///
    /// [`Refusal::Number`] if there is no such line; [`Refusal::RowParity`] or
    /// [`Refusal::ColumnParity`] if the parity line of its row or of its column
    /// isn't a correct line; [`Refusal::Faulty`] if the line is faulty. The
    /// store is then as before.
    pub fn change(&mut self, n: usize, data: &[u8; DATA_BYTES]) -> Result<(), Refusal> {
        let (rows, columns) = (self.rows, self.columns);
        let parts = self.parts_mut();
        let (row_table, column_table) = (parts.row_table, parts.column_table);
        let (answer, number) =
            c::change_line(rows, columns, parts.lines, row_table, column_table, n, data);
        Refusal::check(answer, number)
    }
}
