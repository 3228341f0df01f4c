//! `captions make`: a store from a text.

use std::os::unix::ffi::OsStrExt;

use sudoku::{DATA_BYTES, GREATEST_SIDE, LEAST_SIDE, Refusal, Store};

use crate::Subcommand;
use crate::arguments::{Arguments, Form, Switch};
use crate::failure::{Failure, Status};
use crate::output::Console;
use crate::shown::Counted;
use crate::sides::Sides;
use crate::source::Source;
use crate::target::Target;
use crate::text::{Captions, Data};

/// The subcommand.
pub const SUBCOMMAND: Subcommand = Subcommand {
    form: Form {
        name: "make",
        switches: &[
            Switch::OUTPUT,
            Switch::value("--rows"),
            Switch::value("--columns"),
        ],
        operands: &["TEXT"],
        needed: 1,
        many: false,
    },
    help: include_str!("help/make.txt"),
    run,
};

/// The most bytes of a text: more than any that fits into a store, and little
/// enough to be read.
const MOST_BYTES: u64 = 256 << 20;

fn run(mut arguments: Arguments, console: &mut Console) -> Result<Status, Failure> {
    let source = Source::new(arguments.operand())?;
    let side = |long| {
        let range = LEAST_SIDE as u64..=GREATEST_SIDE as u64;
        let side = arguments.number(long, range)?;
        Ok(side.and_then(|side| usize::try_from(side).ok()))
    };
    let (rows, columns) = (side("--rows")?, side("--columns")?);
    let target = Target::new(arguments.value("--output"), console)?;
    target.must_not_be(&source, "")?;

    let text = source.text(MOST_BYTES, &console.progress)?;
    let captions = Captions::read(&text, is_srt(&source));
    refuse_bad(&captions, &source, console)?;
    let count = captions.count;
    let sides = Sides::choose(count, rows, columns)
        .map_err(|room| Failure::of(&source, format!("{count} captions, and {room} fit")))?;
    let store = store(captions.data, sides).map_err(|refusal| Failure::of(&source, refusal))?;
    target.write(store.as_bytes(), console)?;
    console.print(format_args!(
        "{target}: {} in {} rows and {} columns, {} bytes\n",
        Counted(count as u64, "caption"),
        sides.rows,
        sides.columns,
        store.as_bytes().len()
    ))?;
    Ok(Status::Whole)
}

/// Whether its name is that of an .srt file.
fn is_srt(source: &Source) -> bool {
    let ending = source.word().as_bytes().last_chunk();
    ending.is_some_and(|ending: &[u8; 4]| ending.eq_ignore_ascii_case(b".srt"))
}

/// Names the bad lines, if there are any.
fn refuse_bad(captions: &Captions, source: &Source, console: &mut Console) -> Result<(), Failure> {
    let Some((last, others)) = captions.bad.split_last() else {
        return match captions.count {
            0 => Err(Failure::of(source, "it has no captions")),
            _ => Ok(()),
        };
    };
    for bad in others {
        console.tell(format_args!("{source}: {bad}"));
    }
    match captions.bad_count - captions.bad.len() {
        0 => Err(Failure::of(source, last)),
        more => {
            console.tell(format_args!("{source}: {last}"));
            Err(Failure::of(source, format!("and {more} more")))
        }
    }
}

/// A store of these sides; the captions that are left over are empty.
fn store(mut data: Vec<Data>, sides: Sides) -> Result<Store, Refusal> {
    data.resize(sides.rows * sides.columns, [0; DATA_BYTES]);
    Store::from_data(sides.rows, sides.columns, &data)
}
