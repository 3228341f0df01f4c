//! Standard output and standard error, without a panic where they fail.

use std::fmt::Display;
use std::fs::File;
use std::io::{self, Write};
use std::os::fd::AsFd;

use crate::failure::Failure;
use crate::progress::Progress;

/// So many bytes are kept back before they are written.
const KEPT: usize = 1 << 16;

/// Where words go.
#[derive(Clone, Copy, Debug, PartialEq, Eq)]
enum Stream {
    Output,
    Error,
}

/// The two streams on which the program speaks, and the line of progress between
/// them.
#[derive(Debug)]
pub struct Console {
    kept: Vec<u8>,
    words: Stream,
    failed: Option<Failure>,
    /// How far the work is.
    pub progress: Progress,
}

impl Console {
    /// Words go to standard output.
    pub fn new() -> Console {
        Console {
            kept: Vec::new(),
            words: Stream::Output,
            failed: None,
            progress: Progress::start(),
        }
    }

    /// From now on words go to standard error, since standard output takes a
    /// file.
    pub fn words_to_error(&mut self) {
        self.words = Stream::Error;
    }

    /// Writes words, sooner or later.
    ///
    /// # Errors
    ///
    /// What is wrong with standard output.
    pub fn print(&mut self, words: impl Display) -> Result<(), Failure> {
        // A buffer in memory takes everything.
        let _ = write!(self.kept, "{words}");
        if self.kept.len() < KEPT {
            return Ok(());
        }
        self.flush()
    }

    /// Writes what was kept back.
    ///
    /// # Errors
    ///
    /// What is wrong with standard output, now or before.
    pub fn flush(&mut self) -> Result<(), Failure> {
        if let Some(failure) = self.failed.clone() {
            return Err(failure);
        }
        let kept = std::mem::take(&mut self.kept);
        match self.words {
            Stream::Output => self.write(&kept),
            Stream::Error => {
                self.progress.without(|| to_error(&kept));
                Ok(())
            }
        }
    }

    /// Writes bytes to standard output at once.
    ///
    /// # Errors
    ///
    /// What is wrong with standard output.
    pub fn write(&mut self, bytes: &[u8]) -> Result<(), Failure> {
        let written = self.progress.without(|| to_output(bytes));
        written.map_err(|error| {
            let failure = Failure::of_output(&error);
            self.failed = Some(failure.clone());
            failure
        })
    }

    /// A message on standard error, after the words before it.
    pub fn tell(&mut self, message: impl Display) {
        // If this fails, the next words do.
        let _ = self.flush();
        let line = format!("captions: {message}\n");
        self.progress.without(|| to_error(line.as_bytes()));
    }
}

impl Default for Console {
    fn default() -> Console {
        Console::new()
    }
}

fn to_output(bytes: &[u8]) -> io::Result<()> {
    if bytes.is_empty() {
        return Ok(());
    }
    as_file(io::stdout())?.write_all(bytes)
}

/// A standard stream as a file, past the standard library's own buffer, which
/// would keep back what doesn't end a line.
///
/// # Errors
///
/// Those of the system.
pub fn as_file(stream: impl AsFd) -> io::Result<File> {
    stream.as_fd().try_clone_to_owned().map(File::from)
}

/// Nothing tells where standard error fails.
fn to_error(bytes: &[u8]) {
    let _ = io::stderr().lock().write_all(bytes);
}
