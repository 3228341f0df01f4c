//! `captions show`: the captions as text.

use std::ffi::OsStr;
use std::fmt::{self, Display, Formatter};

use sudoku::{Outcome, Repaired, Store};

use crate::Subcommand;
use crate::arguments::{Arguments, Form, Quoted, number_or_greatest};
use crate::failure::{Failure, Status};
use crate::marks::meaning;
use crate::output::Console;
use crate::shown::{Cue, Place, caption, filled};
use crate::source::Source;

/// The subcommand.
pub const SUBCOMMAND: Subcommand = Subcommand {
    form: Form {
        name: "show",
        switches: &[],
        operands: &["FILE", "N"],
        needed: 1,
        many: false,
    },
    help: include_str!("help/show.txt"),
    run,
};

/// What the line of a lost caption begins with.
const BRACKET: &[u8] = b"[caption ";

fn run(mut arguments: Arguments, console: &mut Console) -> Result<Status, Failure> {
    let source = Source::new(arguments.operand())?;
    let words: Vec<_> = arguments.operands().collect();
    let number = words.first().map(|word| number(word)).transpose()?;
    let store = source.needed_store(console)?;
    match number {
        Some(number) => one(&source, &store, number, console),
        None => all(&source, &store.repair(), console),
    }
}

/// The number of a caption that a word is; one beyond every store, if it is too
/// great for a number.
///
/// # Errors
///
/// [`Failure::Call`] if it isn't digits alone.
pub fn number(word: &OsStr) -> Result<usize, Failure> {
    number_or_greatest(word).ok_or_else(|| {
        let word = Quoted(word);
        Failure::call(format!("{word} is not the number of a caption"))
    })
}

/// Refuses the number of a caption that the store doesn't have.
///
/// # Errors
///
/// What is the greatest number.
pub fn must_have(source: &Source, store: &Store, number: usize) -> Result<(), Failure> {
    if number < store.count() {
        return Ok(());
    }
    let greatest = store.count().saturating_sub(1);
    let words = format!("answer 8: no caption has this number; the greatest is {greatest}");
    Err(Failure::of(source, words))
}

/// Shows one caption, and reads no more of the store than it takes.
fn one(
    source: &Source,
    store: &Store,
    number: usize,
    console: &mut Console,
) -> Result<Status, Failure> {
    must_have(source, store, number)?;
    let one = store.read_one(number);
    let one = one.map_err(|refusal| Failure::of(source, refusal))?;
    let columns = store.columns();
    let place = Place { number, columns };
    let data = one
        .whole()
        .map_err(|_| Failure::of(source, format!("{place}, is lost")))?;
    console.print(format_args!("{}\n", Line(&data)))?;
    Ok(Status::Whole)
}

/// Shows all captions but the empty ones at the end.
fn all(source: &Source, repaired: &Repaired, console: &mut Console) -> Result<Status, Failure> {
    if repaired.outcome == Outcome::Differs {
        let answer = repaired.outcome.number();
        let words = format!("answer {answer}: {}", meaning(repaired.outcome));
        return Err(Failure::of(source, words));
    }
    let count = repaired.store.count();
    let is_empty = |n: &usize| {
        let data = repaired.data(*n);
        data.is_some_and(|data| filled(&data).is_empty())
    };
    let end = (0..count)
        .rev()
        .find(|n| !is_empty(n))
        .map_or(0, |last| last + 1);
    for n in 0..end {
        match repaired.data(n) {
            Some(data) => console.print(format_args!("{}\n", Line(&data)))?,
            None => console.print(format_args!("[{} is lost]\n", Cue(n)))?,
        }
    }
    Ok(Status::whole_if(repaired.is_whole()))
}

/// A caption as a line of its own, which can't be taken for that of a lost one.
struct Line<'a>(&'a [u8]);

impl Display for Line<'_> {
    fn fmt(&self, f: &mut Formatter<'_>) -> fmt::Result {
        if self.0.starts_with(BRACKET) {
            f.write_str("\\")?;
        }
        caption(self.0).fmt(f)
    }
}

#[cfg(test)]
mod tests {
    use super::*;

    #[test]
    fn no_caption_is_taken_for_a_lost_one() {
        let line = |text: &[u8]| Line(text).to_string();
        assert_eq!(
            line(b"[caption 1 (cue 2) is lost]\0"),
            r"\[caption 1 (cue 2) is lost]"
        );
        assert_eq!(line(b"[caption"), "[caption");
        assert_eq!(line(b"see [caption 1"), "see [caption 1");
    }

    #[test]
    fn a_number_is_digits() {
        assert_eq!(number(OsStr::new("17")), Ok(17));
        assert_eq!(number(OsStr::new("99999999999999999999")), Ok(usize::MAX));
        let words = "'x' is not the number of a caption".to_string();
        assert_eq!(number(OsStr::new("x")), Err(Failure::Call(words)));
    }
}
