//! Why a call is refused.

use std::error::Error;
use std::fmt;

/// Why a call is refused: the first that fits, in the order in which they stand
/// here. A refused call leaves everything as it was.
///
/// [`Refusal::number`] gives the number that C gives. No refusal is 3, which is
/// the program `storecheck`'s alone, or 9: 13 and 14 stand in its place.
#[derive(Clone, Copy, Debug, PartialEq, Eq, Hash)]
pub enum Refusal {
    /// 1: a store file has fewer than 28 bytes.
    ShortFile,
    /// 2: rows or columns lie outside 2 to 512.
    Sides,
    /// 4: a store file's contents table or length isn't the one required.
    Contents,
    /// 5: the lines handed in aren't rows × columns × 70 bytes, or a single
    /// line isn't 70 bytes.
    Lines,
    /// 6: a table, read or written, isn't 70 bytes for each of its rows or
    /// columns.
    Table,
    /// 7: another buffer, or the data, has another length than it should.
    Buffer,
    /// 8: the line number isn't below rows × columns.
    Number,
    /// 15: ten numbers are no wear report, the report has its million stores
    /// already, or what is added isn't the result of a repair.
    Wear,
    /// 13: in a change, the parity line of the line's row isn't a correct line;
    /// that of its column may be bad too. The store has to be repaired, or the
    /// row table loaded anew.
    RowParity {
        /// The line's row, counted from 0.
        row: usize,
    },
    /// 14: in a change, the parity line of the line's column isn't a correct
    /// line, while that of its row is. The store has to be repaired, or the
    /// column table loaded anew.
    ColumnParity {
        /// The line's column, counted from 0.
        column: usize,
    },
    /// 10: a line to be read alone, changed or summed into tables is faulty.
    Faulty,
    /// A number that this crate doesn't know.
    Other(u32),
}

impl Refusal {
    /// The refusal that C gives by these two numbers: its answer, and the number
    /// of a row or column, which only 13 and 14 look at. `None` for 0, 11 and
    /// 12, with which C hands something over.
    ///
    /// ```
    /// use sudoku::Refusal;
    /// assert_eq!(Refusal::from_numbers(10, 0), Some(Refusal::Faulty));
    /// let row = Refusal::RowParity { row: 3 };
    /// assert_eq!(Refusal::from_numbers(13, 3), Some(row));
    /// assert_eq!(row.number(), 13);
    /// assert_eq!(Refusal::from_numbers(99, 0), Some(Refusal::Other(99)));
    /// assert_eq!(Refusal::from_numbers(11, 0), None);
    /// ```
    #[must_use]
    pub fn from_numbers(answer: u32, number: u64) -> Option<Refusal> {
        // With 13 and 14 it is below 512.
        let index = usize::try_from(number).unwrap_or(usize::MAX);
        Some(match answer {
            0 | 11 | 12 => return None,
            1 => Refusal::ShortFile,
            2 => Refusal::Sides,
            4 => Refusal::Contents,
            5 => Refusal::Lines,
            6 => Refusal::Table,
            7 => Refusal::Buffer,
            8 => Refusal::Number,
            15 => Refusal::Wear,
            13 => Refusal::RowParity { row: index },
            14 => Refusal::ColumnParity { column: index },
            10 => Refusal::Faulty,
            other => Refusal::Other(other),
        })
    }

    /// An error if these two numbers are those of a refusal.
    pub(crate) fn check(answer: u32, number: u64) -> Result<(), Refusal> {
        Refusal::from_numbers(answer, number).map_or(Ok(()), Err)
    }

    /// This refusal's number.
    #[must_use]
    pub fn number(self) -> u32 {
        match self {
            Refusal::ShortFile => 1,
            Refusal::Sides => 2,
            Refusal::Contents => 4,
            Refusal::Lines => 5,
            Refusal::Table => 6,
            Refusal::Buffer => 7,
            Refusal::Number => 8,
            Refusal::Wear => 15,
            Refusal::RowParity { .. } => 13,
            Refusal::ColumnParity { .. } => 14,
            Refusal::Faulty => 10,
            Refusal::Other(number) => number,
        }
    }
}

impl fmt::Display for Refusal {
    fn fmt(&self, f: &mut fmt::Formatter<'_>) -> fmt::Result {
        let words = match self {
            Refusal::ShortFile => "the file has fewer than 28 bytes",
            Refusal::Sides => "rows or columns lie outside 2 to 512",
            Refusal::Contents => "the file's contents table or length is wrong",
            Refusal::Lines => "the lines have another length",
            Refusal::Table => "a table has another length",
            Refusal::Buffer => "a buffer or the data have another length",
            Refusal::Number => "there is no line of this number",
            Refusal::Wear => {
                "the numbers are no wear report, the report is full, or this is no result of a repair"
            }
            Refusal::RowParity { row } => return bad_parity(f, "row", *row),
            Refusal::ColumnParity { column } => return bad_parity(f, "column", *column),
            Refusal::Faulty => "a line is faulty",
            Refusal::Other(number) => return write!(f, "unknown answer {number}"),
        };
        f.write_str(words)
    }
}

/// What is to be done about a damaged parity line.
fn bad_parity(f: &mut fmt::Formatter<'_>, side: &str, number: usize) -> fmt::Result {
    write!(
        f,
        "the parity line of {side} {number} is not a correct line: repair the store or reload the \
         {side} table"
    )
}

impl Error for Refusal {}
