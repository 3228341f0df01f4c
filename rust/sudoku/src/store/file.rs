//! A store read from its file, and written to it.

use std::fs::File;
use std::io::{self, Read as _, Write};
use std::path::Path;

use crate::{FileError, HEADER_BYTES, Store, c, replace_file};

impl Store {
    /// The store that the bytes of a store file are. They aren't copied.
    ///
    /// ```
    /// use sudoku::{FileError, Store};
    /// let store = Store::new(2, 2)?;
    /// let mut bytes = store.clone().into_bytes();
    /// assert_eq!(Store::from_bytes(bytes.clone())?, store);
    ///
    /// bytes.pop();
    /// let error = Store::from_bytes(bytes).unwrap_err();
    /// assert_eq!(
    ///     error.to_string(),
    ///     "cut off: 2 rows and 2 columns take 588 bytes, the file has 587"
    /// );
    /// # Ok::<(), Box<dyn std::error::Error>>(())
    /// ```
    ///
    /// # Errors
    ///
    /// What is wrong with the bytes, if they are no store file.
    pub fn from_bytes(bytes: Vec<u8>) -> Result<Store, FileError> {
        let (answer, layout) = c::open_file(&bytes);
        if answer != 0 {
            return Err(FileError::refused(&bytes, Some(bytes.len() as u64)));
        }
        Ok(Store {
            rows: layout.rows as usize,
            columns: layout.columns as usize,
            bytes,
        })
    }

    /// The bytes of this store's file.
    #[must_use]
    pub fn as_bytes(&self) -> &[u8] {
        &self.bytes
    }

    /// The same, without a copy.
    #[must_use]
    pub fn into_bytes(self) -> Vec<u8> {
        self.bytes
    }

    /// Reads a store file: 28 bytes of header, and no more where the header is
    /// refused; otherwise on to the end, but at most one byte beyond what the
    /// header requires, to see that nothing follows. So a reader without an end is
    /// refused.
    ///
    /// ```
    /// use std::io;
    /// use sudoku::{FileError, Refusal, Store};
    /// let store = Store::new(2, 3)?;
    /// assert_eq!(Store::read_from(store.as_bytes())?, store);
    ///
    /// let endless = Store::read_from(io::repeat(7)).unwrap_err();
    /// assert_eq!(endless.refusal(), Some(Refusal::Sides));
    /// # Ok::<(), Box<dyn std::error::Error>>(())
    /// ```
    ///
    /// # Errors
    ///
    /// [`FileError::Io`] if the reader fails; otherwise what is wrong with the
    /// bytes.
    pub fn read_from(mut reader: impl io::Read) -> Result<Store, FileError> {
        let mut bytes = Vec::with_capacity(HEADER_BYTES);
        let mut header = reader.by_ref().take(HEADER_BYTES as u64);
        header.read_to_end(&mut bytes)?;
        let needed = c::bytes_needed(&bytes);
        if needed > HEADER_BYTES {
            let rest = needed - HEADER_BYTES;
            bytes.reserve_exact(rest);
            reader.take(rest as u64).read_to_end(&mut bytes)?;
            if bytes.len() == needed {
                return Err(FileError::refused(&bytes, None));
            }
        }
        Store::from_bytes(bytes)
    }

    /// Writes this store's file, and flushes the writer.
    ///
    /// # Errors
    ///
    /// Those of the writer.
    pub fn write_to(&self, mut writer: impl Write) -> io::Result<()> {
        writer.write_all(&self.bytes)?;
        writer.flush()
    }

    /// Reads the store file at this path, as [`Store::read_from`] does. A file that
    /// is too long has its length told, though no more of it is read.
    ///
    /// ```no_run
    /// use sudoku::Store;
    /// let store = Store::open("show.store")?;
    /// println!("{} of {} lines are faulty", store.faulty().len(), store.count());
    /// # Ok::<(), sudoku::FileError>(())
    /// ```
    ///
    /// # Errors
    ///
    /// [`FileError::Io`] if it can't be read; otherwise what is wrong with it.
    pub fn open(path: impl AsRef<Path>) -> Result<Store, FileError> {
        let file = File::open(path)?;
        Store::read_from(&file).map_err(|error| error.with_length_of(&file))
    }

    /// Writes this store to a file so that a crash leaves the old file or the new
    /// one, and never a part: [`replace_file()`] says how.
    ///
    /// ```no_run
    /// use sudoku::Store;
    /// let store = Store::open("show.store")?;
    /// store.repair().whole()?.save("show.store")?;
    /// # Ok::<(), Box<dyn std::error::Error>>(())
    /// ```
    ///
    /// # Errors
    ///
    /// Those of the file system. An old file is then as it was.
    pub fn save(&self, path: impl AsRef<Path>) -> io::Result<()> {
        replace_file(path, &self.bytes)
    }
}
