//! The program `captions`: [`captions::run`] on the words of its call.

use std::env;
use std::process::ExitCode;

fn main() -> ExitCode {
    captions::run(env::args_os().skip(1)).into()
}
