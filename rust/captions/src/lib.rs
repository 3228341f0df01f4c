//! The caption store for people: the program `captions`, on the proved library.
//!
//! [`run`] takes the words of a call and does what they ask. Each subcommand has
//! a module of its own; the others hold what they share. `captions --help` tells
//! what there is.
//!
//! Nothing here panics, whatever the words, files and streams are.

pub mod arguments;
pub mod change;
pub mod check;
pub mod damage;
pub mod failure;
pub mod forecast;
pub mod help;
pub mod hurt;
pub mod json;
pub mod lost;
pub mod make;
pub mod marks;
pub mod output;
pub mod parity;
pub mod picture;
pub mod progress;
pub mod random;
pub mod repair;
pub mod show;
pub mod shown;
pub mod sides;
pub mod source;
pub mod srt;
pub mod summary;
pub mod svg;
pub mod target;
pub mod terminal;
pub mod text;
pub mod wear;

use std::ffi::{OsStr, OsString};

use arguments::{Arguments, Asked, Form, Quoted};
use failure::{Failure, Status};
use output::Console;

/// A subcommand.
#[derive(Clone, Copy, Debug)]
pub struct Subcommand {
    /// What it takes.
    pub form: Form,
    /// What it says of itself.
    pub help: &'static str,
    /// What it does.
    pub run: fn(Arguments, &mut Console) -> Result<Status, Failure>,
}

/// All of them.
pub const SUBCOMMANDS: [Subcommand; 8] = [
    make::SUBCOMMAND,
    check::SUBCOMMAND,
    repair::SUBCOMMAND,
    show::SUBCOMMAND,
    change::SUBCOMMAND,
    wear::SUBCOMMAND,
    forecast::SUBCOMMAND,
    hurt::SUBCOMMAND,
];

/// Does what the words of a call ask; the program's own name isn't among them.
pub fn run(words: impl IntoIterator<Item = OsString>) -> Status {
    let mut console = Console::new();
    let mut words = words.into_iter();
    let Some(first) = words.next() else {
        console.progress.end();
        console.tell(help::USAGE);
        return Status::Wrong;
    };
    let (name, done) = match subcommand(&first) {
        Some(found) => (found.form.name, start(found, words, &mut console)),
        None => ("", other(first, words, &mut console)),
    };
    let done = done.and_then(|status| console.flush().map(|()| status));
    console.progress.end();
    done.unwrap_or_else(|failure| end(&failure, name, &mut console))
}

fn subcommand(name: &OsStr) -> Option<Subcommand> {
    let mut subcommands = SUBCOMMANDS.into_iter();
    subcommands.find(|subcommand| subcommand.form.name == name)
}

fn start(
    subcommand: Subcommand,
    words: impl Iterator<Item = OsString>,
    console: &mut Console,
) -> Result<Status, Failure> {
    match Arguments::parse(&subcommand.form, words)? {
        Asked::Help => console.print(subcommand.help).map(|()| Status::Whole),
        Asked::Run(arguments) => (subcommand.run)(arguments, console),
    }
}

/// Calls that aren't a subcommand's work.
fn other(
    first: OsString,
    mut words: impl Iterator<Item = OsString>,
    console: &mut Console,
) -> Result<Status, Failure> {
    let text = match first.to_str() {
        Some("--help" | "-h") => help::HELP,
        Some("--version") => help::VERSION,
        Some("help") => help_on(words.next())?,
        _ => return Err(no_subcommand(&first)),
    };
    if let Some(extra) = words.next() {
        return Err(Failure::too_many(&extra));
    }
    console.print(text).map(|()| Status::Whole)
}

/// The help on a subcommand, or on all of them.
fn help_on(topic: Option<OsString>) -> Result<&'static str, Failure> {
    let Some(topic) = topic else {
        return Ok(help::HELP);
    };
    match (subcommand(&topic), topic.to_str()) {
        (Some(found), _) => Ok(found.help),
        (None, Some("help" | "--help" | "-h")) => Ok(help::HELP),
        _ => Err(no_subcommand(&topic)),
    }
}

fn no_subcommand(word: &OsStr) -> Failure {
    Failure::call(format!("no subcommand {}", Quoted(word)))
}

/// Tells why a run ended early.
fn end(failure: &Failure, name: &str, console: &mut Console) -> Status {
    match failure {
        Failure::Call(words) => {
            let space = if name.is_empty() { "" } else { " " };
            console.tell(format_args!(
                "{words}; captions{space}{name} --help explains"
            ));
            Status::Wrong
        }
        Failure::Refused(words) => {
            console.tell(words);
            Status::Lost
        }
        Failure::ReaderGone => Status::Lost,
    }
}
