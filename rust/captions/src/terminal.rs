//! What the terminal can show: its width, its colours and its characters.

use std::env;
use std::ffi::{OsStr, OsString};
use std::io::{self, IsTerminal};
use std::process::{Command, Stdio};

use crate::arguments::{Arguments, Quoted, number_or_greatest};
use crate::failure::Failure;
use crate::output::as_file;

/// The width where nothing tells another.
const USUAL_WIDTH: usize = 80;

/// When there are colours.
#[derive(Clone, Copy, Debug, PartialEq, Eq)]
pub enum Colour {
    /// Where standard output is a terminal that has them.
    Auto,
    /// Always.
    Always,
    /// Never.
    Never,
}

impl Colour {
    /// What `--color` says.
    ///
    /// # Errors
    ///
    /// [`Failure::Call`] if it is none of the three words.
    pub fn asked(arguments: &Arguments) -> Result<Colour, Failure> {
        let Some(value) = arguments.value("--color") else {
            return Ok(Colour::Auto);
        };
        match value.to_str() {
            Some("auto") => Ok(Colour::Auto),
            Some("always") => Ok(Colour::Always),
            Some("never") => Ok(Colour::Never),
            _ => Err(Failure::call(format!(
                "--color: {} is none of auto, always and never",
                Quoted(value)
            ))),
        }
    }
}

/// A place to draw on.
#[derive(Clone, Copy, Debug, PartialEq, Eq)]
pub struct Screen {
    /// Characters of a line.
    pub width: usize,
    /// Whether there are colours.
    pub colours: bool,
    /// Whether there are other characters than those of ASCII.
    pub utf8: bool,
}

impl Screen {
    /// That of standard output.
    pub fn of_output(colour: Colour) -> Screen {
        let terminal = io::stdout().is_terminal();
        let asked = if terminal { terminal_width } else { || None };
        Screen {
            width: width(variable, asked),
            colours: colours(colour, terminal, variable),
            utf8: utf8(variable),
        }
    }
}

/// A variable of the environment, unless it is empty.
fn variable(name: &str) -> Option<OsString> {
    env::var_os(name).filter(|value| !value.is_empty())
}

/// Whether characters other than those of ASCII can be shown.
pub fn has_utf8() -> bool {
    utf8(variable)
}

fn utf8(variable: impl Fn(&str) -> Option<OsString>) -> bool {
    let mut locales = ["LC_ALL", "LC_CTYPE", "LANG"].into_iter();
    let locale = locales.find_map(variable).unwrap_or_default();
    let locale = locale.to_string_lossy().to_ascii_lowercase();
    locale.contains("utf-8") || locale.contains("utf8")
}

fn colours(colour: Colour, terminal: bool, variable: impl Fn(&str) -> Option<OsString>) -> bool {
    match colour {
        Colour::Always => true,
        Colour::Never => false,
        Colour::Auto => {
            let dumb = variable("TERM").is_some_and(|term| term == "dumb");
            terminal && !dumb && variable("NO_COLOR").is_none()
        }
    }
}

fn width(
    variable: impl Fn(&str) -> Option<OsString>,
    terminal: impl Fn() -> Option<usize>,
) -> usize {
    let columns = variable("COLUMNS").and_then(|columns| above_zero(&columns));
    columns.or_else(terminal).unwrap_or(USUAL_WIDTH)
}

fn above_zero(word: &OsStr) -> Option<usize> {
    number_or_greatest(word).filter(|&number| number > 0)
}

/// What `stty` says of the terminal that standard output is: the standard library
/// can't tell.
fn terminal_width() -> Option<usize> {
    let terminal = as_file(io::stdout()).ok()?;
    let asked = Command::new("stty")
        .arg("size")
        .stdin(Stdio::from(terminal))
        .stderr(Stdio::null())
        .output()
        .ok()?;
    let size = String::from_utf8(asked.stdout).ok()?;
    let width = size.split_ascii_whitespace().nth(1)?;
    above_zero(OsStr::new(width))
}

#[cfg(test)]
mod tests {
    use super::*;

    /// An environment with these variables.
    fn set<'a>(pairs: &'a [(&str, &str)]) -> impl Fn(&str) -> Option<OsString> + 'a {
        |name| {
            let found = pairs.iter().find(|(key, _)| *key == name);
            found.map(|(_, value)| OsString::from(value))
        }
    }

    #[test]
    fn the_first_locale_counts() {
        assert!(utf8(set(&[("LANG", "en_GB.UTF-8")])));
        assert!(utf8(set(&[("LC_CTYPE", "C.utf8"), ("LANG", "C")])));
        assert!(!utf8(set(&[("LC_ALL", "C"), ("LANG", "en_GB.UTF-8")])));
        assert!(!utf8(set(&[("LANG", "de_DE.ISO-8859-1")])));
        assert!(!utf8(set(&[])));
    }

    #[test]
    fn colours_are_for_terminals() {
        let plain: &[(&str, &str)] = &[("TERM", "xterm")];
        assert!(colours(Colour::Auto, true, set(plain)));
        assert!(!colours(Colour::Auto, false, set(plain)));
        assert!(!colours(Colour::Auto, true, set(&[("TERM", "dumb")])));
        assert!(!colours(Colour::Auto, true, set(&[("NO_COLOR", "1")])));
        assert!(colours(Colour::Always, false, set(&[("NO_COLOR", "1")])));
        assert!(!colours(Colour::Never, true, set(plain)));
    }

    #[test]
    fn the_width_is_looked_for() {
        let terminal = || Some(132);
        assert_eq!(width(set(&[("COLUMNS", "40")]), terminal), 40);
        assert_eq!(width(set(&[("COLUMNS", "wide")]), terminal), 132);
        assert_eq!(width(set(&[("COLUMNS", "0")]), terminal), 132);
        assert_eq!(width(set(&[]), || None), 80);
    }
}
