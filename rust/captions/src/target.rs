//! The files that are written: beside the old one, which they then replace.

use std::ffi::OsStr;
use std::fmt::{self, Display, Formatter};
use std::fs::{self, Metadata};
use std::io::{self, IsTerminal};
use std::os::unix::fs::MetadataExt;
use std::path::{Path, PathBuf};

use sudoku::replace_file;

use crate::arguments::must_be_named;
use crate::failure::{Failure, Reason};
use crate::output::{Console, as_file};
use crate::shown;
use crate::source::Source;

/// A file to be written.
#[derive(Clone, Debug, PartialEq, Eq)]
pub enum Target {
    /// Standard output.
    Output,
    /// The file at this path.
    File(PathBuf),
}

impl Target {
    /// The file that `-o` names: `-` is standard output, and so is another name of
    /// it, unless that is a terminal. Words then go to standard error.
    ///
    /// # Errors
    ///
    /// [`Failure::Call`] if `-o` is missing or names nothing, or a terminal would
    /// take the bytes.
    pub fn new(word: Option<&OsStr>, console: &mut Console) -> Result<Target, Failure> {
        let word = word.ok_or_else(|| Failure::call("no -o FILE is given"))?;
        must_be_named("-o", word)?;
        if word != "-" && !is_output(Path::new(word)) {
            return Ok(Target::File(word.into()));
        }
        if io::stdout().is_terminal() {
            return Err(Failure::call(
                "a store is not text: it is not written to a terminal",
            ));
        }
        console.words_to_error();
        Ok(Target::Output)
    }

    /// The file that this option names, which can't be standard output or input.
    ///
    /// # Errors
    ///
    /// [`Failure::Call`] if it is `-` or empty.
    pub fn named(option: &str, word: &OsStr) -> Result<Target, Failure> {
        must_be_named(option, word)?;
        if word == "-" {
            return Err(Failure::call(format!("{option} needs the name of a file")));
        }
        Ok(Target::File(word.into()))
    }

    /// Refuses to write over the file that is read.
    ///
    /// # Errors
    ///
    /// [`Failure::Call`] if both are one file, with this advice.
    pub fn must_not_be(&self, source: &Source, advice: &str) -> Result<(), Failure> {
        if !self.is(source) {
            return Ok(());
        }
        Err(Failure::call(format!(
            "{source}: the input and the output are the same file{advice}"
        )))
    }

    fn is(&self, source: &Source) -> bool {
        if let (Target::File(target), Source::File(source)) = (self, source)
            && target == source
        {
            return true;
        }
        let target = match self {
            Target::Output => output().ok(),
            Target::File(path) => fs::metadata(path).ok(),
        };
        match (target, source.metadata()) {
            // Of devices and pipes nothing is overwritten.
            (Some(target), Some(source)) => target.is_file() && same(&target, &source),
            _ => false,
        }
    }

    /// Writes these bytes: a file beside the old one, which it then replaces.
    ///
    /// # Errors
    ///
    /// Why that can't be done, in words.
    pub fn write(&self, bytes: &[u8], console: &mut Console) -> Result<(), Failure> {
        match self {
            Target::Output => console.write(bytes),
            Target::File(path) => replace(path, bytes),
        }
    }
}

impl Display for Target {
    fn fmt(&self, f: &mut Formatter<'_>) -> fmt::Result {
        match self {
            Target::Output => f.write_str("standard output"),
            Target::File(path) => shown::name(path.as_os_str()).fmt(f),
        }
    }
}

/// Puts a file with these bytes in the place of the old one.
///
/// # Errors
///
/// Why that can't be done, in words.
pub fn replace(path: &Path, bytes: &[u8]) -> Result<(), Failure> {
    let name = shown::name(path.as_os_str());
    replace_file(path, bytes).map_err(|error| Failure::of(name, Reason(&error)))
}

/// What standard output is.
fn output() -> io::Result<Metadata> {
    as_file(io::stdout())?.metadata()
}

/// Whether a path leads to what standard output is, as `/dev/stdout` does.
fn is_output(path: &Path) -> bool {
    match (fs::metadata(path), output()) {
        (Ok(file), Ok(output)) => same(&file, &output),
        _ => false,
    }
}

/// Whether two are one file, device or pipe.
fn same(one: &Metadata, other: &Metadata) -> bool {
    let identity = |file: &Metadata| (file.dev(), file.ino());
    identity(one) == identity(other)
}
