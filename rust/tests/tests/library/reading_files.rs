//! The crate's store as the bytes of a file: from bytes and back, from readers
//! that are slow, interrupted, failing or endless, and to writers.

use std::cell::Cell;
use std::error::Error;
use std::fmt;
use std::io::{self, BufReader, ErrorKind, Read, Write};

use library_tests::{cases, file_bytes, seed};
use reference::draw::{self, Store as Drawn};
use reference::file::HEADER_BYTES;
use reference::random::Random;
use sudoku::{FileError, Refusal, Store};

use crate::crate_over_c::store_of;

/// What is wrong with a file, as `FileError` should tell it.
fn due_error(file: &[u8], found: Option<u64>) -> String {
    let side = |at: usize| u16::from_le_bytes([file[at], file[at + 1]]);
    match reference::check_file(file).answer {
        1 => format!("Short {{ bytes: {} }}", file.len()),
        2 => format!("Sides {{ rows: {}, columns: {} }}", side(0), side(2)),
        4 if file[..HEADER_BYTES] != reference::file::header(side(0), side(2)) => {
            format!("Contents {{ rows: {}, columns: {} }}", side(0), side(2))
        }
        4 => {
            let (rows, columns) = (side(0), side(2));
            let expected = file_bytes(rows.into(), columns.into());
            format!(
                "Length {{ rows: {rows}, columns: {columns}, expected: {expected}, found: {found:?} }}"
            )
        }
        other => panic!("{other} is no refusal of a file"),
    }
}

/// The store or the error that a file gave is the one that it should give. Of a
/// file that is too long a reader knows no more than that.
fn expect(given: Result<Store, FileError>, file: &[u8], from_reader: bool) {
    let opened = reference::check_file(file);
    match given {
        Ok(store) => {
            assert_eq!(opened.answer, 0);
            assert_eq!(
                (store.rows(), store.columns()),
                (opened.rows, opened.columns)
            );
            assert!(store.line_bytes() == &file[opened.lines]);
            assert!(store.row_table() == &file[opened.row_table]);
            assert!(store.column_table() == &file[opened.column_table]);
            assert!(store.as_bytes() == file);
            assert!(store.into_bytes() == file);
        }
        Err(error) => {
            let refusal = error.refusal().map(Refusal::number);
            assert_eq!(refusal, Some(opened.answer));
            assert!(error.source().is_none());
            let too_long = matches!(&error, FileError::Length { expected, .. }
                if file.len() as u64 > *expected);
            let found = Some(file.len() as u64).filter(|_| !(from_reader && too_long));
            assert_eq!(format!("{error:?}"), due_error(file, found));
        }
    }
}

/// A reader that gives at most so many bytes at a time, and is interrupted before
/// each.
struct Slow<'a> {
    left: &'a [u8],
    most: usize,
    interrupted: bool,
}

impl Read for Slow<'_> {
    fn read(&mut self, to: &mut [u8]) -> io::Result<usize> {
        self.interrupted = !self.interrupted;
        if self.interrupted {
            return Err(ErrorKind::Interrupted.into());
        }
        let most = to.len().min(self.most);
        self.left.read(&mut to[..most])
    }
}

#[test]
fn drawn_files_are_opened_or_refused() {
    let mut random = Random::new(seed());
    for _ in 0..cases(4_000) {
        let file = draw::store_file(&mut random);
        expect(Store::from_bytes(file.clone()), &file, false);
        expect(Store::read_from(&file[..]), &file, true);
        let most = [1, 7, 27, 28, 29, 70, 4_096][random.below(7)];
        let slow = Slow {
            left: &file,
            most,
            interrupted: false,
        };
        expect(Store::read_from(slow), &file, true);
        expect(Store::read_from(BufReader::new(&file[..])), &file, true);
    }
}

#[test]
fn a_store_is_its_file() {
    let mut random = Random::new(seed());
    for _ in 0..cases(200) {
        let drawn = draw::hurt_store(&mut random, 6);
        let store = store_of(&drawn);
        assert!(store.as_bytes() == drawn.file());
        let mut written = vec![];
        store.write_to(&mut written).expect("written");
        assert!(written == drawn.file());
        assert!(Store::read_from(&written[..]).expect("read") == store);
        // What repair gives, and what was changed, is a file again.
        let mut repaired = store.repair().store;
        assert!(Store::from_bytes(repaired.as_bytes().to_vec()).expect("read") == repaired);
        if repaired.change(0, &[7; 64]).is_ok() {
            let again = Store::from_bytes(repaired.clone().into_bytes()).expect("read");
            assert!(again == repaired);
            assert_eq!(again.read(0).map(|read| read.data()), Ok([7; 64]));
        }
    }
}

#[test]
fn no_bytes_are_copied() {
    let bytes = Drawn::zero(40, 50).file();
    let before = bytes.as_ptr();
    let store = Store::from_bytes(bytes).expect("a store");
    assert_eq!(store.as_bytes().as_ptr(), before);
    assert_eq!(
        store.line_bytes().as_ptr(),
        before.wrapping_add(HEADER_BYTES)
    );
    let after = store.into_bytes();
    assert_eq!(after.as_ptr(), before);
}

/// A header, and then zeros without an end; counts what was taken.
struct Endless<'a> {
    begins: &'a [u8],
    taken: &'a Cell<usize>,
}

impl Read for Endless<'_> {
    fn read(&mut self, to: &mut [u8]) -> io::Result<usize> {
        let given = match self.begins.read(to)? {
            0 => {
                to.fill(0);
                to.len()
            }
            some => some,
        };
        self.taken.set(self.taken.get() + given);
        Ok(given)
    }
}

#[test]
fn no_more_is_read_than_needed() {
    let right = reference::file::header(2, 3);
    let mut wrong_table = right;
    wrong_table[27] ^= 1;
    let wrong_sides = reference::file::header(2, 513);
    let begins = [
        (&right[..], 799),
        (&wrong_table, 28),
        (&wrong_sides, 28),
        (&[], 28),
    ];
    for (begins, due) in begins {
        let taken = Cell::new(0);
        let endless = Endless {
            begins,
            taken: &taken,
        };
        let error = Store::read_from(endless).expect_err("endless");
        assert_eq!(taken.get(), due);
        assert_eq!(
            matches!(
                error,
                FileError::Length {
                    found: None,
                    expected: 798,
                    ..
                }
            ),
            due == 799
        );
    }
    // What follows a store in a reader that goes on is left to others only if its
    // length is known: a store's file ends where it ends.
    let file = Drawn::zero(2, 3).file();
    let two = [&file[..], &file[..]].concat();
    assert!(Store::read_from(&two[..]).is_err());
    assert!(Store::read_from((&two[..]).take(798)).is_ok());
}

/// Fails after so many bytes.
struct Failing<'a> {
    left: &'a [u8],
}

impl Read for Failing<'_> {
    fn read(&mut self, to: &mut [u8]) -> io::Result<usize> {
        match self.left.read(to)? {
            0 => Err(io::Error::new(
                ErrorKind::TimedOut,
                "the unit was pulled out",
            )),
            some => Ok(some),
        }
    }
}

#[test]
fn a_reader_that_fails() {
    let file = Drawn::zero(2, 2).file();
    for length in 0..=file.len() {
        let left = &file[..length];
        let error = Store::read_from(Failing { left }).expect_err("it fails");
        let FileError::Io(inner) = &error else {
            panic!("{length}: {error}");
        };
        assert_eq!(inner.kind(), ErrorKind::TimedOut);
        assert_eq!(error.to_string(), "the unit was pulled out");
        assert!(error.source().is_none() && error.refusal().is_none());
    }
    // Where the header is refused, no more is asked for.
    let left = &[0; HEADER_BYTES];
    let error = Store::read_from(Failing { left }).expect_err("no store");
    assert_eq!(error.refusal(), Some(Refusal::Sides));
}

/// An error with one behind it.
#[derive(Debug)]
struct Pulled(io::Error);

impl fmt::Display for Pulled {
    fn fmt(&self, f: &mut fmt::Formatter<'_>) -> fmt::Result {
        f.write_str("the unit was pulled out")
    }
}

impl Error for Pulled {
    fn source(&self) -> Option<&(dyn Error + 'static)> {
        Some(&self.0)
    }
}

/// What an error says, and each one behind it.
fn chain(error: &dyn Error) -> Vec<String> {
    let mut all = vec![error.to_string()];
    let mut behind = error.source();
    while let Some(error) = behind {
        all.push(error.to_string());
        behind = error.source();
    }
    all
}

#[test]
fn each_error_behind_another_is_told_once() {
    let cable = io::Error::new(ErrorKind::BrokenPipe, "no cable");
    let pulled = io::Error::new(ErrorKind::TimedOut, Pulled(cable));
    let due = ["the unit was pulled out", "no cable"];
    assert_eq!(chain(&FileError::from(pulled)), due);
    // One with nothing behind it stands alone.
    let plain = FileError::from(io::Error::from(ErrorKind::TimedOut));
    assert_eq!(chain(&plain), ["timed out"]);
    let missing = Store::open("/missing.store").expect_err("no file");
    assert_eq!(chain(&missing), ["No such file or directory (os error 2)"]);
}

/// Takes so many bytes, a few at a time, and says how often it was flushed.
struct Full {
    room: usize,
    flushed: usize,
}

impl Write for Full {
    fn write(&mut self, from: &[u8]) -> io::Result<usize> {
        let taken = from.len().min(self.room).min(33);
        self.room -= taken;
        Ok(taken)
    }

    fn flush(&mut self) -> io::Result<()> {
        self.flushed += 1;
        Ok(())
    }
}

#[test]
fn a_writer_that_is_full() {
    let store = Store::new(2, 2).expect("two by two");
    let mut enough = Full {
        room: 588,
        flushed: 0,
    };
    store.write_to(&mut enough).expect("room enough");
    assert_eq!((enough.room, enough.flushed), (0, 1));
    for room in [0, 1, 587] {
        let error = store.write_to(Full { room, flushed: 0 }).expect_err("full");
        assert_eq!(error.kind(), ErrorKind::WriteZero);
    }
}

#[test]
fn a_person_reads_what_is_wrong() {
    let says = |file: &[u8]| {
        Store::from_bytes(file.to_vec())
            .expect_err("no store")
            .to_string()
    };
    let file = Drawn::zero(6, 6).file();
    assert_eq!(
        says(&[]),
        "too short: a store file begins with 28 bytes of header, the file has 0"
    );
    assert_eq!(
        says(b"<html><body>There is nothing here</body></html>"),
        "no store: rows and columns are 2 to 512 each, the header has 26684 and 28020"
    );
    let mut table = file.clone();
    table[4] = 29;
    assert_eq!(
        says(&table),
        "no store: the contents table isn't that of 6 rows and 6 columns"
    );
    assert_eq!(
        says(&file[..1_000]),
        "cut off: 6 rows and 6 columns take 3388 bytes, the file has 1000"
    );
    let mut long = file;
    long.push(0);
    let too_long = "too long: 6 rows and 6 columns take 3388 bytes, the file has";
    assert_eq!(says(&long), format!("{too_long} 3389"));
    let read = Store::read_from(&long[..]).expect_err("no store");
    assert_eq!(read.to_string(), format!("{too_long} more"));
}
