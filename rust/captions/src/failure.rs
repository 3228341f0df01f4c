//! How a run ends: its exit status, and why it may end early.

use std::ffi::OsStr;
use std::fmt::{self, Display, Formatter};
use std::io;
use std::process::ExitCode;

use crate::arguments::Quoted;

/// How a run ended. Of two, the greater one counts.
#[must_use]
#[derive(Clone, Copy, Debug, PartialEq, Eq, PartialOrd, Ord)]
pub enum Status {
    /// 0: everything asked for is there.
    Whole,
    /// 1: something is lost or refused, or can't be read or written.
    Lost,
    /// 2: it was called wrongly.
    Wrong,
}

impl Status {
    /// Whole if this is so, and otherwise lost.
    pub fn whole_if(whole: bool) -> Status {
        if whole { Status::Whole } else { Status::Lost }
    }

    /// The number that the shell sees.
    #[must_use]
    pub fn code(self) -> u8 {
        match self {
            Status::Whole => 0,
            Status::Lost => 1,
            Status::Wrong => 2,
        }
    }
}

impl From<Status> for ExitCode {
    fn from(status: Status) -> ExitCode {
        ExitCode::from(status.code())
    }
}

/// Why a run ends before its work is done.
#[derive(Clone, Debug, PartialEq, Eq)]
pub enum Failure {
    /// The call is wrong, in these words.
    Call(String),
    /// Something is refused, or can't be read or written, in these words.
    Refused(String),
    /// Whoever read standard output has gone away, and needs no message.
    ReaderGone,
}

impl Failure {
    /// A wrong call.
    pub fn call(words: impl Display) -> Failure {
        Failure::Call(words.to_string())
    }

    /// A call with this word, for which there is no place.
    pub fn too_many(word: &OsStr) -> Failure {
        Failure::call(format!("{} is one argument too many", Quoted(word)))
    }

    /// What is wrong with the file, or with whatever else has this name.
    pub fn of(name: impl Display, words: impl Display) -> Failure {
        Failure::Refused(format!("{name}: {words}"))
    }

    /// What went wrong on standard output.
    pub fn of_output(error: &io::Error) -> Failure {
        if error.kind() == io::ErrorKind::BrokenPipe {
            return Failure::ReaderGone;
        }
        Failure::of("standard output", Reason(error))
    }
}

impl Display for Failure {
    fn fmt(&self, f: &mut Formatter<'_>) -> fmt::Result {
        match self {
            Failure::Call(words) | Failure::Refused(words) => f.write_str(words),
            Failure::ReaderGone => f.write_str("standard output has no reader"),
        }
    }
}

/// What the system says of an error, without the error's number.
pub struct Reason<'a>(pub &'a io::Error);

impl Display for Reason<'_> {
    fn fmt(&self, f: &mut Formatter<'_>) -> fmt::Result {
        let words = self.0.to_string();
        let number = self.0.raw_os_error();
        let ending = number.map(|number| format!(" (os error {number})"));
        let short = ending.and_then(|ending| words.strip_suffix(&ending));
        f.write_str(short.unwrap_or(&words))
    }
}

#[cfg(test)]
mod tests {
    use super::*;

    #[test]
    fn the_greater_status_counts() {
        assert_eq!(Status::Whole.max(Status::Lost), Status::Lost);
        assert_eq!(Status::Lost.max(Status::Wrong).code(), 2);
    }

    #[test]
    fn a_reason_has_no_number() {
        // 2 is ENOENT on Linux.
        let missing = io::Error::from_raw_os_error(2);
        assert_eq!(Reason(&missing).to_string(), "No such file or directory");
        let own = io::Error::other("out of paper");
        assert_eq!(Reason(&own).to_string(), "out of paper");
    }

    #[test]
    fn a_reader_that_is_gone_needs_no_message() {
        let gone = io::Error::from(io::ErrorKind::BrokenPipe);
        assert_eq!(Failure::of_output(&gone), Failure::ReaderGone);
        let full = io::Error::other("full");
        let told = Failure::Refused("standard output: full".to_string());
        assert_eq!(Failure::of_output(&full), told);
    }
}
