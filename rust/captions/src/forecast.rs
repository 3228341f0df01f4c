//! `captions forecast`: what rebuilding alone would save.

use crate::Subcommand;
use crate::arguments::{Arguments, Form};
use crate::failure::{Failure, Status};
use crate::lost::List;
use crate::output::Console;
use crate::parity::faulty_parity;
use crate::shown::{Counted, Place};
use crate::source::Source;

/// The subcommand.
pub const SUBCOMMAND: Subcommand = Subcommand {
    form: Form {
        name: "forecast",
        switches: &[],
        operands: &["FILE"],
        needed: 1,
        many: false,
    },
    help: include_str!("help/forecast.txt"),
    run,
};

fn run(mut arguments: Arguments, console: &mut Console) -> Result<Status, Failure> {
    let source = Source::new(arguments.operand())?;
    let store = source.needed_store(console)?;
    let (faulty, columns) = (store.faulty(), store.columns());
    let forecast = sudoku::forecast(store.rows(), columns, &faulty);
    let forecast = forecast.map_err(|refusal| Failure::of(&source, refusal))?;
    let lost = forecast.lost();
    console.print(format_args!(
        "{source}: {} of {} captions cannot be read alone; rebuilding alone saves {} and may lose \
         {} ({})\n",
        faulty.len(),
        store.count(),
        faulty.len().saturating_sub(lost.len()),
        lost.len(),
        Counted(forecast.passes, "pass")
    ))?;
    console.print(List {
        heading: "may be lost",
        things: lost.iter().map(|&number| Place { number, columns }),
    })?;
    let parity = faulty_parity(&store);
    console.print(List {
        heading: "parity lines that cannot be read alone",
        things: parity.iter(),
    })?;
    if faulty.is_empty() {
        return Ok(Status::Whole);
    }
    if !parity.is_empty() {
        console.print("so this is no bound: repair may lose more\n")?;
    }
    Ok(Status::whole_if(lost.is_empty() && parity.is_empty()))
}
