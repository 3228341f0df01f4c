//! Why a store file can't be had.

use std::error::Error;
use std::fs::File;
use std::{fmt, io};

use crate::{HEADER_BYTES, Refusal, c};

/// Why a store file can't be read, or is no store.
#[derive(Debug)]
pub enum FileError {
    /// It couldn't be opened or read.
    Io(io::Error),
    /// It has fewer bytes than a header.
    Short {
        /// How many it has.
        bytes: u64,
    },
    /// Its header has sides outside 2 to 512.
    Sides {
        /// The rows that stand there.
        rows: usize,
        /// The columns that stand there.
        columns: usize,
    },
    /// Its contents table isn't the one that these sides require.
    Contents {
        /// The rows.
        rows: usize,
        /// The columns.
        columns: usize,
    },
    /// Its header is right, and its length isn't the one required: it was cut
    /// off, or something follows.
    Length {
        /// The rows.
        rows: usize,
        /// The columns.
        columns: usize,
        /// How many bytes a file of these sides has.
        expected: u64,
        /// How many this one has; `None` if more than expected, and no more of
        /// them was read.
        found: Option<u64>,
    },
}

impl FileError {
    /// Why a file is refused that begins with these bytes and has so many, or
    /// more than it should.
    pub(crate) fn refused(start: &[u8], found: Option<u64>) -> FileError {
        let Some(header) = start.first_chunk::<HEADER_BYTES>() else {
            let bytes = start.len() as u64;
            return FileError::Short { bytes };
        };
        let side = |at| usize::from(u16::from_le_bytes([header[at], header[at + 1]]));
        let (rows, columns) = (side(0), side(2));
        let mut required = [0; HEADER_BYTES];
        if c::write_header(rows, columns, &mut required) != 0 {
            return FileError::Sides { rows, columns };
        }
        if *header != required {
            return FileError::Contents { rows, columns };
        }
        FileError::Length {
            rows,
            columns,
            expected: c::bytes_needed(header) as u64 - 1,
            found,
        }
    }

    /// The same, and where a file is too long, its length: a reader stops at the
    /// first byte that should not be there, and so can't tell it. Where the file
    /// system can't either, as of a pipe, the error stays as it is.
    ///
    /// For a file that was read from its start by another way than
    /// [`Store::open`](crate::Store::open), which does this itself:
    ///
    /// ```no_run
    /// use std::fs::File;
    /// use sudoku::Store;
    /// let file = File::open("show.store")?;
    /// let store = Store::read_from(&file).map_err(|error| error.with_length_of(&file))?;
    /// # Ok::<(), sudoku::FileError>(())
    /// ```
    #[must_use]
    pub fn with_length_of(mut self, file: &File) -> FileError {
        if let FileError::Length {
            expected,
            found: found @ None,
            ..
        } = &mut self
        {
            let length = file.metadata().ok().map(|metadata| metadata.len());
            *found = length.filter(|length| length > expected);
        }
        self
    }

    /// The library's refusal behind it; none if the file couldn't be read.
    #[must_use]
    pub fn refusal(&self) -> Option<Refusal> {
        match self {
            FileError::Io(_) => None,
            FileError::Short { .. } => Some(Refusal::ShortFile),
            FileError::Sides { .. } => Some(Refusal::Sides),
            FileError::Contents { .. } | FileError::Length { .. } => Some(Refusal::Contents),
        }
    }
}

impl fmt::Display for FileError {
    fn fmt(&self, f: &mut fmt::Formatter<'_>) -> fmt::Result {
        match self {
            FileError::Io(error) => error.fmt(f),
            FileError::Short { bytes } => write!(
                f,
                "too short: a store file begins with 28 bytes of header, the file has {bytes}"
            ),
            FileError::Sides { rows, columns } => write!(
                f,
                "no store: rows and columns are 2 to 512 each, the header has {rows} and {columns}"
            ),
            FileError::Contents { rows, columns } => write!(
                f,
                "no store: the contents table isn't that of {rows} rows and {columns} columns"
            ),
            FileError::Length {
                rows,
                columns,
                expected,
                found,
            } => {
                let cut = found.is_some_and(|found| found < *expected);
                let flaw = if cut { "cut off" } else { "too long" };
                write!(
                    f,
                    "{flaw}: {rows} rows and {columns} columns take {expected} bytes, the file has "
                )?;
                match found {
                    Some(found) => write!(f, "{found}"),
                    None => f.write_str("more"),
                }
            }
        }
    }
}

impl Error for FileError {
    fn source(&self) -> Option<&(dyn Error + 'static)> {
        match self {
            // What is shown of it is the reader's error itself, so that the next
            // one behind is that one's: who prints them all repeats nothing.
            FileError::Io(error) => error.source(),
            _ => None,
        }
    }
}

impl From<io::Error> for FileError {
    fn from(error: io::Error) -> FileError {
        FileError::Io(error)
    }
}
