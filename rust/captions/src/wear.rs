//! `captions wear`: what the repairs of many stores found, added up.

use std::cmp::Reverse;
use std::ffi::OsStr;
use std::fmt::{self, Display, Formatter};

use sudoku::{FileError, Mark, Outcome, Percent, Repaired, Store, Wear};

use crate::Subcommand;
use crate::arguments::{Arguments, Form, Switch};
use crate::failure::{Failure, Status};
use crate::marks::meaning;
use crate::output::Console;
use crate::shown::Counted;
use crate::source::{Source, each_store, sources};
use crate::target::Target;
use crate::terminal::has_utf8;

/// The subcommand.
pub const SUBCOMMAND: Subcommand = Subcommand {
    form: Form {
        name: "wear",
        switches: &[Switch::value("--save"), Switch::value("--load")],
        operands: &["FILE"],
        needed: 0,
        many: true,
    },
    help: include_str!("help/wear.txt"),
    run,
};

/// The most characters of a bar.
const BAR: u64 = 40;

/// The most bytes of a saved report: ten numbers, and room to spare.
const REPORT_BYTES: u64 = 1 << 16;

fn run(mut arguments: Arguments, console: &mut Console) -> Result<Status, Failure> {
    let load = arguments.value("--load").map(loaded).transpose()?;
    let save = arguments.value("--save");
    let save = save.map(|word| Target::named("--save", word)).transpose()?;
    let sources = sources(arguments.operands())?;
    if sources.is_empty() && load.is_none() {
        return Err(Failure::call("no FILE and no --load REPORT is given"));
    }
    if let Some(save) = &save {
        let mut sources = sources.iter();
        sources.try_for_each(|source| save.must_not_be(source, ""))?;
    }
    let mut tour = Tour::default();
    if let Some(source) = load {
        tour.sum = report(&source, console)?;
        tour.loaded = true;
    }
    each_store(&sources, console, |source, store, console| {
        tour.take(source, store, console);
        Ok(())
    })?;
    if tour.loaded || !tour.units.is_empty() {
        console.print(Table(&tour.sum))?;
    }
    if sources.len() > 1 {
        tour.tell_units(console)?;
    }
    if let Some(save) = save {
        console.flush()?;
        let text = format!("{}\n", tour.sum.to_text());
        save.write(text.as_bytes(), console)?;
    }
    Ok(Status::whole_if(!tour.worse))
}

fn loaded(word: &OsStr) -> Result<Source, Failure> {
    // Checked as a file that is written: it needs a name too.
    Target::named("--load", word)?;
    Source::new(word.to_os_string())
}

/// The report that was saved there.
fn report(source: &Source, console: &Console) -> Result<Wear, Failure> {
    let text = source.text(REPORT_BYTES, &console.progress)?;
    let text = String::from_utf8_lossy(&text);
    Wear::from_text(&text).map_err(|error| Failure::of(source, error))
}

/// One store.
struct Unit {
    name: String,
    wear: Wear,
    lost: u64,
    outcome: Outcome,
}

impl Unit {
    /// How bad it is beside others of the same share: most where no caption is to
    /// be trusted, and otherwise by the captions that are lost.
    fn badness(&self) -> u64 {
        match self.outcome {
            Outcome::Differs => u64::MAX,
            Outcome::Left => self.lost,
            Outcome::Done => 0,
        }
    }
}

impl Display for Unit {
    fn fmt(&self, f: &mut Formatter<'_>) -> fmt::Result {
        let (name, share, lost) = (&self.name, self.wear.rebuilt_share(), self.lost);
        let answer = self.outcome.number();
        write!(f, "{name}  {share} rebuilt, {lost} lost, answer {answer}")
    }
}

/// The stores of a call, and their sum.
#[derive(Default)]
struct Tour {
    sum: Wear,
    /// Whether the sum began with a report that was saved.
    loaded: bool,
    units: Vec<Unit>,
    /// Whether some store isn't whole, or wasn't taken in.
    worse: bool,
}

impl Tour {
    fn take(&mut self, source: &Source, store: Result<Store, FileError>, console: &mut Console) {
        let taken = store.ok().map(|store| self.add(source, &store.repair()));
        self.worse |= !matches!(taken, Some(Ok(true)));
        if let Some(Err(refusal)) = taken {
            let answer = refusal.number();
            console.tell(Failure::of(source, format!("answer {answer}: {refusal}")));
        }
    }

    /// Whether the store taken in is whole.
    fn add(&mut self, source: &Source, repaired: &Repaired) -> Result<bool, sudoku::Refusal> {
        self.sum.add(repaired)?;
        let mut wear = Wear::new();
        wear.add(repaired)?;
        self.units.push(Unit {
            name: source.to_string(),
            wear,
            lost: repaired.counts.of(Mark::Faulty),
            outcome: repaired.outcome,
        });
        Ok(repaired.is_whole())
    }

    /// The stores, the most rebuilt first, by the library's comparison.
    fn tell_units(&mut self, console: &mut Console) -> Result<(), Failure> {
        self.units
            .sort_by_key(|unit| Reverse((unit.wear.rebuilt_share(), unit.badness())));
        if !self.units.is_empty() {
            console.print("\nmost rebuilt first:\n")?;
        }
        let mut units = self.units.iter();
        units.try_for_each(|unit| console.print(format_args!("{unit}\n")))
    }
}

/// A report as a table, with a bar for each mark.
struct Table<'a>(&'a Wear);

impl Display for Table<'_> {
    fn fmt(&self, f: &mut Formatter<'_>) -> fmt::Result {
        let wear = self.0;
        let (stores, lines) = (wear.stores(), wear.lines());
        writeln!(
            f,
            "{}, {}, {} rebuilt ({})",
            Counted(stores, "store"),
            Counted(lines, "caption"),
            wear.lines_with(Mark::Rebuilt),
            wear.rebuilt_share()
        )?;
        let width = lines.max(stores).to_string().len();
        let block = if has_utf8() { "█" } else { "#" };
        for mark in Mark::ALL {
            let count = wear.lines_with(mark);
            let percent = Percent::of(count, lines);
            write!(f, "  {mark:9}  {count:>width$}  {percent:>8}")?;
            let bar = block.repeat(bar(count, lines));
            let gap = if bar.is_empty() { "" } else { "  " };
            writeln!(f, "{gap}{bar}")?;
        }
        for outcome in Outcome::ALL {
            let answer = format!("answer {}", outcome.number());
            let count = wear.stores_with(outcome);
            let (percent, says) = (Percent::of(count, stores), meaning(outcome));
            writeln!(f, "  {answer:9}  {count:>width$}  {percent:>8}  {says}")?;
        }
        Ok(())
    }
}

/// The length of the bar for so many of so many: by their share, and at least one
/// character for any.
fn bar(part: u64, whole: u64) -> usize {
    let (scaled, whole) = (u128::from(part) * u128::from(BAR), u128::from(whole));
    let rounded = (2 * scaled + whole).checked_div(2 * whole).unwrap_or(0);
    let length = rounded.clamp(u128::from(part > 0), u128::from(BAR));
    usize::try_from(length).unwrap_or(0)
}

#[cfg(test)]
mod tests {
    use super::*;

    #[test]
    fn a_bar_is_as_long_as_its_share() {
        assert_eq!(bar(0, 36), 0);
        assert_eq!(bar(36, 36), 40);
        assert_eq!(bar(18, 36), 20);
        // 40 · 33 / 36 is 36.67.
        assert_eq!(bar(33, 36), 37);
        assert_eq!(bar(1, 1_000_000), 1);
        assert_eq!(bar(0, 0), 0);
        assert_eq!(bar(u64::MAX, u64::MAX), 40);
    }
}
