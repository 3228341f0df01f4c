//! A report as people read it.

use std::fmt::{self, Display, Formatter};

use super::{Percent, Wear};
use crate::{Mark, Outcome};

/// What the marks say, in few words.
const MARKS: [(Mark, &str); 5] = [
    (Mark::Clean, "correct as found"),
    (Mark::Rewritten, "rewritten, each by itself"),
    (Mark::Trial, "mended by trial"),
    (Mark::Rebuilt, "rebuilt from a row or column"),
    (Mark::Faulty, "given up"),
];

/// A word for each outcome.
const OUTCOMES: [(Outcome, &str); 3] = [
    (Outcome::Done, "done"),
    (Outcome::Left, "left"),
    (Outcome::Differs, "differs"),
];

/// A number with commas between its thousands.
fn grouped(number: u64) -> String {
    let digits = number.to_string();
    let mut text = String::new();
    for (i, digit) in digits.chars().enumerate() {
        if i > 0 && (digits.len() - i).is_multiple_of(3) {
            text.push(',');
        }
        text.push(digit);
    }
    text
}

/// So many of a thing, in words.
fn counted(count: u64, thing: &str) -> String {
    let ending = if count == 1 { "" } else { "s" };
    format!("{} {thing}{ending}", grouped(count))
}

/// The rows of lines or of stores. Their name stands before the first alone.
struct Rows {
    name: &'static str,
    whole: u64,
    width: usize,
}

impl Rows {
    fn write(
        &mut self,
        f: &mut Formatter,
        word: impl Display,
        count: u64,
        says: impl Display,
    ) -> fmt::Result {
        let name = std::mem::take(&mut self.name);
        let percent = Percent::of(count, self.whole);
        let (count, width) = (grouped(count), self.width);
        write!(
            f,
            "\n{name:6}  {word:7}  {count:>width$}  {percent:>8}  {says}"
        )
    }
}

impl Display for Wear {
    fn fmt(&self, f: &mut Formatter<'_>) -> fmt::Result {
        let (stores, lines) = (self.stores(), self.lines());
        write!(
            f,
            "{}, {}, {} rebuilt ({})",
            counted(stores, "store"),
            counted(lines, "line"),
            grouped(self.lines_with(Mark::Rebuilt)),
            self.rebuilt_share()
        )?;
        let width = grouped(stores.max(lines)).len();
        let rows = |name, whole| Rows { name, whole, width };
        let mut of_lines = rows("lines", lines);
        for (mark, says) in MARKS {
            of_lines.write(f, mark, self.lines_with(mark), says)?;
        }
        let mut of_stores = rows("stores", stores);
        for (outcome, word) in OUTCOMES {
            of_stores.write(f, word, self.stores_with(outcome), outcome)?;
        }
        Ok(())
    }
}
