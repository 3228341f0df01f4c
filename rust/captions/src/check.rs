//! `captions check`: what is wrong with stores.

use std::fmt::{self, Display, Formatter};

use sudoku::{FileError, Outcome, Repaired};

use crate::Subcommand;
use crate::arguments::{Arguments, Form, Switch};
use crate::failure::{Failure, Status};
use crate::json::{Entry, comma};
use crate::lost::{List, lost};
use crate::output::Console;
use crate::picture::Picture;
use crate::source::{Source, each_store, sources};
use crate::summary::Summary;
use crate::svg::Svg;
use crate::target::Target;
use crate::terminal::{Colour, Screen};

/// The subcommand.
pub const SUBCOMMAND: Subcommand = Subcommand {
    form: Form {
        name: "check",
        switches: &[
            Switch::flag("--json"),
            Switch::value("--svg"),
            Switch::flag("--no-picture"),
            Switch::value("--color"),
        ],
        operands: &["FILE"],
        needed: 1,
        many: true,
    },
    help: include_str!("help/check.txt"),
    run,
};

fn run(mut arguments: Arguments, console: &mut Console) -> Result<Status, Failure> {
    let manner = Manner::asked(&arguments)?;
    let sources = sources(arguments.operands())?;
    let picture = picture_file(&arguments, &sources)?;
    let mut drawn = None;
    let mut tally = Tally::default();
    console.print(manner.start())?;
    each_store(&sources, console, |source, store, console| {
        let found = store.map(|store| store.repair());
        manner.tell(source, &found, tally.told, console)?;
        tally.add(&found, manner);
        if let (Some(_), Ok(repaired)) = (&picture, &found) {
            let name = source.to_string();
            let name = &name;
            drawn = Some(Svg { name, repaired }.to_string());
        }
        Ok(())
    })?;
    console.print(manner.end(&tally))?;
    if let (Some(file), Some(picture)) = (picture, drawn) {
        console.flush()?;
        file.write(picture.as_bytes(), console)?;
    }
    Ok(Status::whole_if(tally.whole == tally.stores()))
}

/// Where the picture of a single store goes, if one is asked for.
fn picture_file(arguments: &Arguments, sources: &[Source]) -> Result<Option<Target>, Failure> {
    let Some(word) = arguments.value("--svg") else {
        return Ok(None);
    };
    let [source] = sources else {
        return Err(Failure::call("--svg is for one FILE alone"));
    };
    let target = Target::named("--svg", word)?;
    target.must_not_be(source, "")?;
    Ok(Some(target))
}

/// How a check is told.
#[derive(Clone, Copy)]
enum Manner {
    /// In words, with a picture on this screen.
    Words(Option<Screen>),
    /// As an array for programs.
    Json,
}

impl Manner {
    fn asked(arguments: &Arguments) -> Result<Manner, Failure> {
        let colour = Colour::asked(arguments)?;
        if arguments.has("--json") {
            return Ok(Manner::Json);
        }
        let picture = !arguments.has("--no-picture");
        Ok(Manner::Words(picture.then(|| Screen::of_output(colour))))
    }

    /// What stands before everything.
    fn start(self) -> &'static str {
        match self {
            Manner::Words(_) => "",
            Manner::Json => "[\n",
        }
    }

    /// Tells of one file, after so many others.
    fn tell(
        self,
        source: &Source,
        found: &Result<Repaired, FileError>,
        others: usize,
        console: &mut Console,
    ) -> Result<(), Failure> {
        match (self, found) {
            (Manner::Json, _) => {
                let (file, found) = (source.word(), found.as_ref());
                // Each in a line of its own, since messages may come between them.
                console.print(format_args!("{}{}\n", comma(others), Entry { file, found }))
            }
            // Of files that are refused a message tells.
            (Manner::Words(_), Err(_)) => Ok(()),
            (Manner::Words(screen), Ok(repaired)) => {
                let blank = if others > 0 { "\n" } else { "" };
                console.print(format_args!(
                    "{blank}{}",
                    Summary {
                        name: source,
                        repaired
                    }
                ))?;
                if let Some(screen) = screen {
                    let (marks, columns) = (&repaired.marks, repaired.store.columns());
                    let picture = Picture {
                        marks,
                        columns,
                        screen,
                    };
                    console.print(format_args!("\n{picture}"))?;
                }
                console.print(lost_list(repaired))
            }
        }
    }

    /// What stands after everything.
    fn end(self, tally: &Tally) -> String {
        match self {
            Manner::Words(_) if tally.stores() > 1 => {
                let blank = if tally.told > 0 { "\n" } else { "" };
                format!("{blank}{tally}\n")
            }
            Manner::Words(_) => String::new(),
            Manner::Json => "]\n".to_string(),
        }
    }
}

/// The list of the captions that are lost.
pub fn lost_list(repaired: &Repaired) -> impl Display + '_ {
    List {
        heading: "lost",
        things: lost(repaired),
    }
}

/// What was found in all files.
#[derive(Default)]
struct Tally {
    whole: usize,
    left: usize,
    differing: usize,
    refused: usize,
    /// Files that standard output tells of.
    told: usize,
}

impl Tally {
    fn add(&mut self, found: &Result<Repaired, FileError>, manner: Manner) {
        let count = match found.as_ref().map(|repaired| repaired.outcome) {
            Ok(Outcome::Done) => &mut self.whole,
            Ok(Outcome::Left) => &mut self.left,
            Ok(Outcome::Differs) => &mut self.differing,
            Err(_) => &mut self.refused,
        };
        *count += 1;
        if found.is_ok() || matches!(manner, Manner::Json) {
            self.told += 1;
        }
    }

    fn stores(&self) -> usize {
        self.whole + self.left + self.differing + self.refused
    }
}

impl Display for Tally {
    fn fmt(&self, f: &mut Formatter<'_>) -> fmt::Result {
        let (stores, whole, left) = (self.stores(), self.whole, self.left);
        let (differing, refused) = (self.differing, self.refused);
        write!(
            f,
            "{stores} stores: {whole} whole, {left} with lost captions, {differing} in \
             disagreement, {refused} refused"
        )
    }
}
