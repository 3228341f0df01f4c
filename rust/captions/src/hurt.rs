//! `captions hurt`: damage for demonstrations and drills.

use crate::Subcommand;
use crate::arguments::{Arguments, Form, Switch};
use crate::damage::{Damage, places};
use crate::failure::{Failure, Status};
use crate::output::Console;
use crate::shown::Counted;
use crate::source::Source;
use crate::target::Target;

/// The subcommand.
pub const SUBCOMMAND: Subcommand = Subcommand {
    form: Form {
        name: "hurt",
        switches: &[
            Switch::OUTPUT,
            Switch::value("--bits"),
            Switch::value("--seed"),
            Switch::flag("--cluster"),
        ],
        operands: &["FILE"],
        needed: 1,
        many: false,
    },
    help: include_str!("help/hurt.txt"),
    run,
};

/// The seed where none is given.
const USUAL_SEED: u64 = 1;

fn run(mut arguments: Arguments, console: &mut Console) -> Result<Status, Failure> {
    let source = Source::new(arguments.operand())?;
    let bits = arguments.number("--bits", 1..=u64::MAX)?;
    let bits = bits.ok_or_else(|| Failure::call("no --bits N is given"))?;
    let seed = arguments.number("--seed", 0..=u64::MAX)?;
    let target = Target::new(arguments.value("--output"), console)?;
    target.must_not_be(&source, "; a hurt store is written beside it")?;

    let mut store = source.needed_store(console)?;
    let places = places(&store);
    if bits > places {
        return Err(Failure::call(format!(
            "--bits: {source} has {places} bits, and {bits} are more"
        )));
    }
    let damage = Damage {
        bits,
        seed: seed.unwrap_or(USUAL_SEED),
        cluster: arguments.has("--cluster"),
    };
    let hurt = damage.strike(&mut store);
    target.write(store.as_bytes(), console)?;
    console.print(format_args!(
        "{target}: {} turned over in {} and {}\n",
        Counted(bits, "bit"),
        Counted(hurt.lines, "line"),
        Counted(hurt.parity_lines, "parity line")
    ))?;
    Ok(Status::Whole)
}
