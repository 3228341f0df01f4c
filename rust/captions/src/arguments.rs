//! The words of a call: the options and operands of a subcommand.

use std::ffi::{OsStr, OsString};
use std::fmt::{self, Display, Formatter};
use std::ops::RangeInclusive;
use std::os::unix::ffi::OsStrExt;
use std::vec;

use crate::failure::Failure;
use crate::shown;

/// An option of a subcommand.
#[derive(Clone, Copy, Debug)]
pub struct Switch {
    /// Its name, such as `--output`.
    pub long: &'static str,
    /// Its short name, such as `-o`.
    pub short: Option<&'static str>,
    /// Whether it takes a value.
    pub takes: bool,
}

impl Switch {
    /// One that is there or not.
    pub const fn flag(long: &'static str) -> Switch {
        Switch {
            long,
            short: None,
            takes: false,
        }
    }

    /// One with a value.
    pub const fn value(long: &'static str) -> Switch {
        Switch {
            long,
            short: None,
            takes: true,
        }
    }

    /// Where the result goes.
    pub const OUTPUT: Switch = Switch {
        long: "--output",
        short: Some("-o"),
        takes: true,
    };
}

/// What a subcommand takes.
#[derive(Clone, Copy, Debug)]
pub struct Form {
    /// The subcommand's name.
    pub name: &'static str,
    /// Its options, beside `--help`.
    pub switches: &'static [Switch],
    /// What its operands are called, in their order.
    pub operands: &'static [&'static str],
    /// How many of them there must be.
    pub needed: usize,
    /// Whether there may be any number of the last.
    pub many: bool,
}

/// What a call asks of a subcommand.
#[derive(Debug)]
pub enum Asked {
    /// Its help.
    Help,
    /// Its work, on these.
    Run(Arguments),
}

/// The options and operands of a call, in the form of its subcommand.
#[derive(Debug, Default)]
pub struct Arguments {
    options: Vec<(&'static str, OsString)>,
    operands: vec::IntoIter<OsString>,
}

impl Arguments {
    /// Takes the words after the subcommand apart. Options may stand anywhere,
    /// until `--` ends them.
    ///
    /// # Errors
    ///
    /// [`Failure::Call`] for words that don't fit the form.
    pub fn parse(form: &Form, words: impl IntoIterator<Item = OsString>) -> Result<Asked, Failure> {
        let mut arguments = Arguments::default();
        let mut operands = Vec::new();
        let mut words = words.into_iter();
        while let Some(word) = words.next() {
            match word.as_bytes() {
                b"--" => operands.extend(words.by_ref()),
                b"--help" | b"-h" => return Ok(Asked::Help),
                [b'-', _, ..] => arguments.add_option(form, &word, &mut words)?,
                _ => operands.push(word),
            }
        }
        form.check(&operands)?;
        arguments.operands = operands.into_iter();
        Ok(Asked::Run(arguments))
    }

    fn add_option(
        &mut self,
        form: &Form,
        word: &OsStr,
        words: &mut impl Iterator<Item = OsString>,
    ) -> Result<(), Failure> {
        let (name, joined) = split(word);
        let found = form.switches.iter().find(|switch| switch.is(name));
        let Some(switch) = found else {
            return Err(Failure::call(format!("no option {}", Quoted(word))));
        };
        switch.must_not_be_assigned(word)?;
        if self.has(switch.long) {
            return Err(Failure::call(format!("{} is given twice", switch.long)));
        }
        let value = match (switch.takes, joined) {
            (true, Some(value)) => value.to_os_string(),
            (true, None) => words
                .next()
                .ok_or_else(|| Failure::call(format!("{} needs a value", switch.long)))?,
            (false, None) => OsString::new(),
            (false, Some(_)) => {
                return Err(Failure::call(format!("{} takes no value", switch.long)));
            }
        };
        self.options.push((switch.long, value));
        Ok(())
    }

    /// Whether this option is given.
    pub fn has(&self, long: &str) -> bool {
        self.value(long).is_some()
    }

    /// The value of this option, if it is given.
    pub fn value(&self, long: &str) -> Option<&OsStr> {
        let found = self.options.iter().find(|(name, _)| *name == long);
        found.map(|(_, value)| value.as_os_str())
    }

    /// The next operand; empty if there is none, which the form rules out for
    /// those that are needed.
    pub fn operand(&mut self) -> OsString {
        self.operands.next().unwrap_or_default()
    }

    /// The operands that are left.
    pub fn operands(&mut self) -> impl ExactSizeIterator<Item = OsString> + '_ {
        self.operands.by_ref()
    }

    /// The value of this option as a number in this range, if it is given.
    ///
    /// # Errors
    ///
    /// [`Failure::Call`] if it is anything else.
    pub fn number(&self, long: &str, range: RangeInclusive<u64>) -> Result<Option<u64>, Failure> {
        let Some(value) = self.value(long) else {
            return Ok(None);
        };
        match digits(value).and_then(|digits| digits.parse().ok()) {
            Some(number) if range.contains(&number) => Ok(Some(number)),
            _ => {
                let (value, range) = (Quoted(value), Limits(&range));
                Err(Failure::call(format!(
                    "{long}: {value} is not a number {range}"
                )))
            }
        }
    }
}

/// A range in words.
struct Limits<'a>(&'a RangeInclusive<u64>);

impl Display for Limits<'_> {
    fn fmt(&self, f: &mut Formatter<'_>) -> fmt::Result {
        match (self.0.start(), self.0.end()) {
            (start, &u64::MAX) => write!(f, "from {start} to 2^64 - 1"),
            (start, end) => write!(f, "from {start} to {end}"),
        }
    }
}

impl Switch {
    /// Refuses `-o=FILE`, of which nobody can tell whether the file is `=FILE`.
    fn must_not_be_assigned(&self, word: &OsStr) -> Result<(), Failure> {
        match (self.short, word.as_bytes()) {
            (Some(short), [b'-', _, b'=', ..]) => Err(Failure::call(format!(
                "{short} takes its file as {short} FILE"
            ))),
            _ => Ok(()),
        }
    }

    fn is(&self, name: &[u8]) -> bool {
        self.long.as_bytes() == name || self.short.is_some_and(|short| short.as_bytes() == name)
    }
}

impl Form {
    fn check(&self, operands: &[OsString]) -> Result<(), Failure> {
        if operands.len() < self.needed {
            let missing = self.operands.get(operands.len()).unwrap_or(&"argument");
            return Err(Failure::call(format!("no {missing} is given")));
        }
        match operands.get(self.operands.len()) {
            Some(extra) if !self.many => Err(Failure::too_many(extra)),
            _ => Ok(()),
        }
    }
}

/// The name of an option, and the value that stands in the same word.
fn split(word: &OsStr) -> (&[u8], Option<&OsStr>) {
    let bytes = word.as_bytes();
    let (name, value) = if bytes.starts_with(b"--") {
        match bytes.iter().position(|&byte| byte == b'=') {
            Some(at) => (bytes.get(..at), bytes.get(at + 1..)),
            None => (Some(bytes), None),
        }
    } else {
        (
            bytes.get(..2),
            bytes.get(2..).filter(|rest| !rest.is_empty()),
        )
    };
    (name.unwrap_or(bytes), value.map(OsStr::from_bytes))
}

/// Refuses an empty word as the name of a file.
///
/// # Errors
///
/// [`Failure::Call`] if it is empty.
pub fn must_be_named(what: &str, word: &OsStr) -> Result<(), Failure> {
    if word.is_empty() {
        return Err(Failure::call(format!(
            "{what}: the name of a file is empty"
        )));
    }
    Ok(())
}

/// The number that a word of digits is; the greatest there is, if it is greater.
pub fn number_or_greatest(word: &OsStr) -> Option<usize> {
    let digits = digits(word)?;
    Some(digits.parse().unwrap_or(usize::MAX))
}

/// A word of digits alone: a sign, which parsing would take too, is none.
fn digits(word: &OsStr) -> Option<&str> {
    let is_digits = |word: &&str| word.bytes().all(|byte| byte.is_ascii_digit());
    word.to_str()
        .filter(is_digits)
        .filter(|word| !word.is_empty())
}

/// A word of the call, in quotes.
pub struct Quoted<'a>(pub &'a OsStr);

impl Display for Quoted<'_> {
    fn fmt(&self, f: &mut Formatter<'_>) -> fmt::Result {
        write!(f, "'{}'", shown::name(self.0))
    }
}

#[cfg(test)]
mod tests {
    use super::*;

    const FORM: Form = Form {
        name: "try",
        switches: &[
            Switch::OUTPUT,
            Switch::value("--rows"),
            Switch::flag("--json"),
        ],
        operands: &["FILE", "N"],
        needed: 1,
        many: false,
    };

    fn parse(line: &str) -> Result<Asked, Failure> {
        Arguments::parse(&FORM, line.split(' ').map(OsString::from))
    }

    fn run(line: &str) -> Arguments {
        match parse(line) {
            Ok(Asked::Run(arguments)) => arguments,
            other => panic!("{line}: {other:?}"),
        }
    }

    fn wrong(line: &str) -> String {
        match parse(line) {
            Err(Failure::Call(words)) => words,
            other => panic!("{line}: {other:?}"),
        }
    }

    #[test]
    fn options_stand_anywhere() {
        for line in [
            "a -o b --rows 4",
            "-o b a --rows=4",
            "--output=b --rows=4 a",
            "-ob --rows 4 -- a",
        ] {
            let mut arguments = run(line);
            assert_eq!(arguments.value("--output"), Some(OsStr::new("b")), "{line}");
            assert_eq!(arguments.number("--rows", 2..=512), Ok(Some(4)), "{line}");
            assert_eq!(arguments.operand(), "a", "{line}");
            assert!(!arguments.has("--json"), "{line}");
        }
    }

    #[test]
    fn two_dashes_end_the_options() {
        let mut arguments = run("--json -- -o --help");
        assert!(arguments.has("--json"));
        let operands: Vec<OsString> = arguments.operands().collect();
        assert_eq!(operands, ["-o", "--help"]);
        // One dash alone is a file.
        assert_eq!(run("-").operand(), "-");
    }

    #[test]
    fn a_wrong_call_is_named() {
        assert_eq!(wrong("a --bogus"), "no option '--bogus'");
        assert_eq!(wrong("a -x"), "no option '-x'");
        assert_eq!(wrong("a --json --json"), "--json is given twice");
        assert_eq!(wrong("a -o b --output=c"), "--output is given twice");
        assert_eq!(wrong("a --json=yes"), "--json takes no value");
        assert_eq!(wrong("a -o"), "--output needs a value");
        assert_eq!(wrong("a -o=b"), "-o takes its file as -o FILE");
        assert_eq!(wrong("a -o="), "-o takes its file as -o FILE");
        assert_eq!(wrong("--json"), "no FILE is given");
        assert_eq!(wrong("a b c"), "'c' is one argument too many");
    }

    #[test]
    fn help_is_asked_for() {
        assert!(matches!(parse("a --help"), Ok(Asked::Help)));
        assert!(matches!(parse("-h"), Ok(Asked::Help)));
    }

    #[test]
    fn numbers_are_digits_alone() {
        let of = |word: &str| number_or_greatest(OsStr::new(word));
        assert_eq!(of("007"), Some(7));
        assert_eq!(of("99999999999999999999999"), Some(usize::MAX));
        for word in ["", "+7", "-7", "7 ", "0x7", "٧"] {
            assert_eq!(of(word), None, "{word}");
        }
        for word in ["1", "513", "x", "99999999999999999999"] {
            let words = format!("--rows: '{word}' is not a number from 2 to 512");
            let result = run(&format!("a --rows {word}")).number("--rows", 2..=512);
            assert_eq!(result, Err(Failure::Call(words)));
        }
    }
}
