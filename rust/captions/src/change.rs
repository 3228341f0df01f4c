//! `captions change`: one caption written anew.

use std::os::unix::ffi::OsStrExt;

use sudoku::{Outcome, Refusal, Store};

use crate::Subcommand;
use crate::arguments::{Arguments, Form};
use crate::failure::{Failure, Status};
use crate::output::Console;
use crate::show::{must_have, number};
use crate::shown::{Cue, caption, shell_word};
use crate::source::Source;
use crate::target::replace;
use crate::text::{Data, clean, data};

/// The subcommand.
pub const SUBCOMMAND: Subcommand = Subcommand {
    form: Form {
        name: "change",
        switches: &[],
        operands: &["FILE", "N", "TEXT"],
        needed: 3,
        many: false,
    },
    help: include_str!("help/change.txt"),
    run,
};

fn run(mut arguments: Arguments, console: &mut Console) -> Result<Status, Failure> {
    let source = Source::new(arguments.operand())?;
    let Source::File(path) = &source else {
        return Err(Failure::call(
            "a file is changed, and standard input is none",
        ));
    };
    let number = number(&arguments.operand())?;
    let text = arguments.operand();
    let text = clean(text.as_bytes()).and_then(|text| data(&text));
    let text = text.map_err(|flaw| Failure::of(&source, format!("the text is refused: {flaw}")))?;

    let mut store = source.needed_store(console)?;
    must_have(&source, &store, number)?;
    if let Err(refusal) = store.change(number, &text) {
        let what = damaged(number, refusal);
        let advice = advice(&source, &store, number, &text);
        let answer = refusal.number();
        return Err(Failure::of(
            &source,
            format!("answer {answer}: {what}: {advice}"),
        ));
    }
    replace(path, store.as_bytes())?;
    let (cue, text) = (Cue(number), caption(&text));
    console.print(format_args!("{source}: {cue}: \"{text}\"\n"))?;
    Ok(Status::Whole)
}

/// Why a caption isn't changed.
fn damaged(number: usize, refusal: Refusal) -> String {
    match refusal {
        Refusal::RowParity { row } => format!("the parity line of row {row} is damaged"),
        Refusal::ColumnParity { column } => {
            format!("the parity line of column {column} is damaged")
        }
        Refusal::Faulty => format!("{} is damaged", Cue(number)),
        other => other.to_string(),
    }
}

/// What to do about it: whether repair helps is tried.
fn advice(source: &Source, store: &Store, number: usize, text: &Data) -> String {
    let mut repaired = store.repair();
    let agrees = repaired.outcome != Outcome::Differs;
    if agrees && repaired.store.change(number, text).is_ok() {
        let file = shell_word(source.word());
        return format!("run captions repair {file} --in-place first");
    }
    "captions repair cannot mend it, so make the store anew from its text".to_string()
}
