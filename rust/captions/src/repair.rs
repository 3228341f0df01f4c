//! `captions repair`: a store with its lines and parity lines mended.

use std::ffi::OsStr;

use sudoku::{Outcome, Store};

use crate::Subcommand;
use crate::arguments::{Arguments, Form, Switch};
use crate::check::lost_list;
use crate::failure::{Failure, Status};
use crate::marks::meaning;
use crate::output::Console;
use crate::parity::faulty_parity;
use crate::source::Source;
use crate::summary::Summary;
use crate::target::Target;

/// The subcommand.
pub const SUBCOMMAND: Subcommand = Subcommand {
    form: Form {
        name: "repair",
        switches: &[Switch::OUTPUT, Switch::flag("--in-place")],
        operands: &["FILE"],
        needed: 1,
        many: false,
    },
    help: include_str!("help/repair.txt"),
    run,
};

fn run(mut arguments: Arguments, console: &mut Console) -> Result<Status, Failure> {
    let source = Source::new(arguments.operand())?;
    let in_place = arguments.has("--in-place");
    let target = target(&source, arguments.value("--output"), in_place, console)?;
    let store = source.needed_store(console)?;
    let repaired = store.repair();
    let differs = repaired.outcome == Outcome::Differs;
    if differs && in_place {
        return Err(not_replaced(&source));
    }
    target.write(repaired.store.as_bytes(), console)?;
    let summary = Summary {
        name: &source,
        repaired: &repaired,
    };
    console.print(summary)?;
    console.print(lost_list(&repaired))?;
    if differs {
        warn(&source, &store, &target, console);
    }
    Ok(Status::whole_if(repaired.is_whole()))
}

/// Where no caption is to be trusted, the file as found is all there is to go by.
fn not_replaced(source: &Source) -> Failure {
    let (answer, says) = (Outcome::Differs.number(), meaning(Outcome::Differs));
    let words = format!("answer {answer}: {says}; use -o NEW and keep this file");
    Failure::of(source, words)
}

/// Tells what a new file is worth whose lines and parity disagree. Parity lines
/// that could be read are in it as they were found.
fn warn(source: &Source, store: &Store, target: &Target, console: &mut Console) {
    console.tell(format_args!(
        "{target}: warning: no caption is to be trusted: lines and parity disagree"
    ));
    if !faulty_parity(store).is_empty() {
        let old = match source {
            Source::Input => "what was read".to_string(),
            file => file.to_string(),
        };
        console.tell(format_args!(
            "{target}: warning: parity lines that could not be read were made afresh from these \
             lines: keep {old}"
        ));
    }
}

/// Where the repaired store goes: one of the two ways must be named.
fn target(
    source: &Source,
    output: Option<&OsStr>,
    in_place: bool,
    console: &mut Console,
) -> Result<Target, Failure> {
    match (in_place, output, source) {
        (true, Some(_), _) => Err(Failure::call("-o and --in-place exclude each other")),
        (true, None, Source::File(path)) => Ok(Target::File(path.clone())),
        (true, None, Source::Input) => Err(Failure::call(
            "--in-place needs a file, and standard input is none",
        )),
        (false, None, _) => Err(Failure::call("neither -o FILE nor --in-place is given")),
        (false, output, _) => {
            let target = Target::new(output, console)?;
            target.must_not_be(source, ": --in-place replaces it")?;
            Ok(target)
        }
    }
}
