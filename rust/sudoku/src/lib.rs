//! A caption store whose repair is proved correct.
//!
//! A caption is 64 bytes of data and stands in a line of 70 bytes: the data, a
//! 31-bit check and ten bits that find one damaged bit, the Hamming bits. A
//! [`Store`] holds rows × columns of such lines and a parity line for each row
//! and column, and [`Store::repair`] mends damaged lines from these, and the
//! parity lines from the lines. [`Store::read_one`] gives one line as repair
//! would, mostly without repairing the rest. [`Store::open`] and [`Store::save`]
//! read and write store files. [`forecast()`] tells from the numbers of the faulty
//! lines alone which captions at most would be lost. A [`Wear`] report adds up
//! what the repairs of many stores found. The work is done by the static library
//! `libcapi.a`, whose functions are proved to follow the store's rules; this crate
//! is a safe way to call it.
//!
//! Nothing here panics on bad input: what is refused comes back as a [`Refusal`],
//! a file that is no store as a [`FileError`]. What repair finds is no error but
//! an [`Outcome`]; [`Repaired::whole`] makes an error of it. Calls keep no state,
//! so threads may call at once; repair and a read of one line need less than 48 kB
//! of a thread's stack, making tables about 110 kB.
//!
//! ```
//! use sudoku::{Mark, Store, Wear, forecast};
//!
//! // Four captions in two rows and two columns.
//! let captions = [[b'a'; 64], [b'b'; 64], [b'c'; 64], [b'd'; 64]];
//! let mut store = Store::from_data(2, 2, &captions)?;
//!
//! // The first two bits of line 3 turn over: it can't be read alone.
//! store.line_bytes_mut()[3 * sudoku::LINE_BYTES] ^= 3;
//! assert_eq!(store.faulty(), [3]);
//!
//! // Only line 3 is faulty: where all parity lines can be read, no line will be
//! // left faulty.
//! assert!(forecast(2, 2, &store.faulty())?.saves_all());
//!
//! // Repair rebuilds it from its row.
//! let repaired = store.repair();
//! assert_eq!(repaired.marks[3], Mark::Rebuilt);
//! assert_eq!(repaired.data(3), Some(captions[3]));
//!
//! // Where only this caption is wanted, a read of one line gives it.
//! assert_eq!(store.read_one(3)?.whole()?, captions[3]);
//!
//! // One of four lines was rebuilt.
//! let mut wear = Wear::new();
//! wear.add(&repaired)?;
//! assert_eq!(wear.rebuilt_share().to_string(), "25.00 %");
//!
//! // The whole store, and the bytes of its file.
//! let whole = repaired.whole()?;
//! assert_eq!(Store::from_bytes(whole.as_bytes().to_vec())?, whole);
//! # Ok::<(), Box<dyn std::error::Error>>(())
//! ```
//!
//! # What to know
//!
//! - After [`Outcome::Left`] the lines marked [`Mark::Faulty`] are damaged, as
//!   found, and so are the parity lines that weren't accepted.
//! - After [`Outcome::Differs`] trust no line: none is faulty, but some parity
//!   line that was accepted disagrees. Some line may be wrong, and nothing tells
//!   which. Parity lines made afresh agree with such lines: keep the old file.
//! - After [`Outcome::Done`] lines and tables of a repair are those written, if
//!   no line and no parity line had more than five damaged bits. The
//!   repository's README says what holds beyond that.
//! - A line that [`Store::read_one`] gives with another mark than
//!   [`Mark::Faulty`] is a correct line, and within the same bounds the one
//!   written; [`One::whole`] gives the data of no other. That lines and tables
//!   disagree ([`Outcome::Differs`]) it doesn't tell.
//! - Lines and tables of zero bytes are a valid store, the one that
//!   [`Store::new`] gives: cleared memory can't be told from empty captions.
//! - A store file's header has no check of its own: one that doesn't fit the file
//!   is refused, and no part of the file is read then.
//! - After [`Refusal::RowParity`] or [`Refusal::ColumnParity`], which only a change
//!   gives, a parity line of that table is damaged. Repair makes it whole if no
//!   line stays faulty; or the table has to be loaded anew
//!   ([`Store::row_table_mut`], [`Store::column_table_mut`]). After the first
//!   the column's may be bad too, since the row is answered for first.
//! - A [`Forecast`] is a bound: of a store whose faulty lines it was told repair
//!   leaves none faulty but those that the forecast leaves, and may mend some of
//!   them by trial. That holds where all parity lines are accepted; where some
//!   aren't, repair may leave more. The passes of a forecast are no bound, and that
//!   lines and tables disagree ([`Outcome::Differs`]) it can't tell.
//! - A [`Wear`] report counts every result that it is handed, the same one again
//!   too. Shares of rebuilt lines are compared exactly ([`Wear::rebuilt_share`]);
//!   in percent, two that differ may look alike.
//! - A refused call leaves the store, or the report, as it was.
//!
//! # Linking
//!
//! The build looks for `target/staticlib/libcapi.a` in the repository, which
//! `bin/library` writes, or for the file that the environment variable
//! `SUDOKU_STATICLIB` names: `libcapi.a`, or `libsudoku.a` where it is installed.

pub mod c;
mod file_error;
mod forecast;
mod line;
mod mark;
mod one;
mod outcome;
mod refusal;
mod repaired;
mod replace_file;
mod step;
mod store;
mod wear;

pub use file_error::FileError;
pub use forecast::{Forecast, forecast};
pub use line::{Read, read_line, write_line};
pub use mark::Mark;
pub use one::One;
pub use outcome::{NotWhole, Outcome};
pub use refusal::Refusal;
pub use repaired::{Counts, Repaired};
pub use replace_file::replace_file;
pub use step::Step;
pub use store::{Lines, Store};
pub use wear::{Percent, Share, TextError, Wear};

/// The README, so that its program is compiled.
#[cfg(doctest)]
#[doc = include_str!("../README.md")]
struct Readme;

/// Data bytes of one line.
pub const DATA_BYTES: usize = 64;

/// Bytes of one line.
pub const LINE_BYTES: usize = 70;

/// Bytes of a store file's header.
pub const HEADER_BYTES: usize = 28;

/// The least number of rows or columns.
pub const LEAST_SIDE: usize = 2;

/// The greatest number of rows or columns.
pub const GREATEST_SIDE: usize = 512;

/// How many lines a store of these sides has, or [`Refusal::Sides`].
fn count_of(rows: usize, columns: usize) -> Result<usize, Refusal> {
    let sides = LEAST_SIDE..=GREATEST_SIDE;
    if !sides.contains(&rows) || !sides.contains(&columns) {
        return Err(Refusal::Sides);
    }
    Ok(rows * columns)
}
