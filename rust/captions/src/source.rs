//! The files that are read: stores and texts.

use std::ffi::{OsStr, OsString};
use std::fmt::{self, Display, Formatter};
use std::fs::{self, File, Metadata};
use std::io::{self, Read};
use std::path::PathBuf;

use sudoku::{FileError, Store};

use crate::arguments::must_be_named;
use crate::failure::{Failure, Reason};
use crate::output::{Console, as_file};
use crate::progress::{Counting, Progress, Work};
use crate::shown;

/// A file to be read.
#[derive(Clone, Debug, PartialEq, Eq)]
pub enum Source {
    /// Standard input.
    Input,
    /// The file at this path.
    File(PathBuf),
}

impl Source {
    /// The file that an operand names: `-` is standard input.
    ///
    /// # Errors
    ///
    /// [`Failure::Call`] if it is empty.
    pub fn new(word: OsString) -> Result<Source, Failure> {
        must_be_named("the input", &word)?;
        if word == "-" {
            return Ok(Source::Input);
        }
        Ok(Source::File(word.into()))
    }

    /// The operand itself.
    pub fn word(&self) -> &OsStr {
        match self {
            Source::Input => OsStr::new("-"),
            Source::File(path) => path.as_os_str(),
        }
    }

    fn file(&self) -> io::Result<File> {
        match self {
            Source::Input => as_file(io::stdin()),
            Source::File(path) => File::open(path),
        }
    }

    /// What it is, if that can be told without opening it.
    pub fn metadata(&self) -> Option<Metadata> {
        match self {
            Source::Input => as_file(io::stdin()).and_then(|file| file.metadata()).ok(),
            Source::File(path) => fs::metadata(path).ok(),
        }
    }

    /// Reads a store, and counts its bytes if they are what is being counted.
    fn store(&self, progress: &Progress) -> Result<Store, FileError> {
        let file = self.file()?;
        let read = if progress.is_shown() {
            let from = &file;
            Store::read_from(Counting { from, progress })
        } else {
            // Where nobody sees the count, the buffer need not be cleared first.
            Store::read_from(&file)
        };
        read.map_err(|error| error.with_length_of(&file))
    }

    /// Reads the only store of a call, with a line of progress for its bytes.
    fn only_store(&self, progress: &Progress) -> Result<Store, FileError> {
        self.counting(progress, || self.store(progress))
    }

    /// Reads the only store of a call, without which there is nothing to do.
    ///
    /// # Errors
    ///
    /// Why it can't be read, or is no store, in words.
    pub fn needed_store(&self, console: &Console) -> Result<Store, Failure> {
        let store = self.only_store(&console.progress);
        store.map_err(|error| self.refused(&error))
    }

    /// Reads, and counts the bytes for the line of progress meanwhile.
    fn counting<T>(&self, progress: &Progress, read: impl FnOnce() -> T) -> T {
        let file = self.metadata().filter(Metadata::is_file);
        progress.begin(Work::Bytes(file.map(|file| file.len())));
        let read = read();
        progress.begin(Work::Doing("working on what was read"));
        read
    }

    /// That it can't be had, in words.
    fn refused(&self, error: &FileError) -> Failure {
        Failure::of(self, Refused(error))
    }

    /// Reads a text of at most so many bytes.
    ///
    /// # Errors
    ///
    /// Why it can't be read, in words.
    pub fn text(&self, most: u64, progress: &Progress) -> Result<Vec<u8>, Failure> {
        let read = || {
            let mut text = Vec::new();
            let from = self.file()?.take(most.saturating_add(1));
            Counting { from, progress }.read_to_end(&mut text)?;
            Ok(text)
        };
        let text: io::Result<Vec<u8>> = self.counting(progress, read);
        let text = text.map_err(|error| Failure::of(self, Reason(&error)))?;
        if text.len() as u64 > most {
            return Err(Failure::of(self, format!("more than {most} bytes")));
        }
        Ok(text)
    }
}

impl Display for Source {
    fn fmt(&self, f: &mut Formatter<'_>) -> fmt::Result {
        match self {
            Source::Input => f.write_str("standard input"),
            Source::File(path) => shown::name(path.as_os_str()).fmt(f),
        }
    }
}

/// Why a store can't be had, with the library's number where it refuses it.
struct Refused<'a>(&'a FileError);

impl Display for Refused<'_> {
    fn fmt(&self, f: &mut Formatter<'_>) -> fmt::Result {
        match (self.0, self.0.refusal()) {
            (FileError::Io(error), _) => Reason(error).fmt(f),
            (error, Some(refusal)) => write!(f, "answer {}: {error}", refusal.number()),
            (error, None) => error.fmt(f),
        }
    }
}

/// The files that a call names. Standard input can be read once alone.
///
/// # Errors
///
/// [`Failure::Call`] if it is named twice, or a name is empty.
pub fn sources(words: impl Iterator<Item = OsString>) -> Result<Vec<Source>, Failure> {
    let sources = words.map(Source::new);
    let sources: Vec<Source> = sources.collect::<Result<_, _>>()?;
    let inputs = sources.iter().filter(|&source| *source == Source::Input);
    if inputs.count() > 1 {
        return Err(Failure::call("standard input is named twice"));
    }
    Ok(sources)
}

/// Reads one store after the other and does the task on each. Those that can't be
/// had are told of first.
///
/// # Errors
///
/// Those of the task, and what is wrong with standard output.
pub fn each_store(
    sources: &[Source],
    console: &mut Console,
    mut task: impl FnMut(&Source, Result<Store, FileError>, &mut Console) -> Result<(), Failure>,
) -> Result<(), Failure> {
    let many = sources.len() > 1;
    if many {
        console.progress.begin(Work::Stores(sources.len() as u64));
    }
    for source in sources {
        let read = if many {
            Source::store
        } else {
            Source::only_store
        };
        let store = read(source, &console.progress);
        if let Err(error) = &store {
            console.tell(source.refused(error));
        }
        task(source, store, console)?;
        console.flush()?;
        console.progress.add_store();
    }
    Ok(())
}
