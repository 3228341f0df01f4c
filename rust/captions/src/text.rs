//! Captions from a text: one for each line.

use std::fmt::{self, Display, Formatter};

use sudoku::{DATA_BYTES, GREATEST_SIDE};

use crate::shown::is_hidden;
use crate::srt;

/// The most captions that a store has.
pub const MOST_CAPTIONS: usize = GREATEST_SIDE * GREATEST_SIDE;

/// So many bad lines are named.
pub const MOST_NAMED: usize = 20;

/// The data of a caption.
pub type Data = [u8; DATA_BYTES];

/// Why a text is no caption.
#[derive(Clone, Copy, Debug, PartialEq, Eq)]
pub enum Flaw {
    /// It isn't UTF-8.
    Encoding,
    /// It has this control character, or another that is hidden.
    Control(char),
    /// It has so many bytes, and not at most 64.
    Long(usize),
    /// A cue of an .srt file has no timing line.
    NoTiming,
    /// A cue of an .srt file has a timing line among its text: nothing parts it
    /// from the next cue.
    SecondTiming,
}

impl Display for Flaw {
    fn fmt(&self, f: &mut Formatter<'_>) -> fmt::Result {
        match self {
            Flaw::Encoding => f.write_str("not UTF-8"),
            Flaw::Control(control) => {
                write!(f, "a control character, U+{:04X}", u32::from(*control))
            }
            Flaw::Long(bytes) => write!(f, "{bytes} bytes long, and a caption has at most 64"),
            Flaw::NoTiming => f.write_str("a cue without a timing line"),
            Flaw::SecondTiming => f.write_str("a second timing line in a cue"),
        }
    }
}

/// A flaw, and the number of its line in the text, counted from 1.
#[derive(Clone, Copy, Debug, PartialEq, Eq)]
pub struct Bad {
    /// The line.
    pub line: usize,
    /// What is wrong with it.
    pub flaw: Flaw,
}

impl Display for Bad {
    fn fmt(&self, f: &mut Formatter<'_>) -> fmt::Result {
        write!(f, "line {}: {}", self.line, self.flaw)
    }
}

/// The captions of a text, and what is wrong with it. However long the text is,
/// no more is kept than a store can hold and a person wants to read.
#[derive(Debug, Default, PartialEq, Eq)]
pub struct Captions {
    /// The captions, as far as a store can hold them.
    pub data: Vec<Data>,
    /// How many there are.
    pub count: usize,
    /// The first bad lines.
    pub bad: Vec<Bad>,
    /// How many bad lines there are.
    pub bad_count: usize,
}

impl Captions {
    /// The captions of a text, or of an .srt file if it is one by its name or
    /// looks like one.
    pub fn read(text: &[u8], named_srt: bool) -> Captions {
        let text = text.strip_prefix(b"\xEF\xBB\xBF").unwrap_or(text);
        if named_srt || srt::is_like(lines(text)) {
            return srt::captions(lines(text));
        }
        let mut captions = Captions::default();
        for (line, bytes) in lines(text) {
            captions.add(line, clean(bytes).and_then(|text| data(&text)));
        }
        captions
    }

    /// Takes in a caption, or what is wrong with it.
    pub fn add(&mut self, line: usize, caption: Result<Data, Flaw>) {
        match caption {
            Ok(data) => {
                self.count += 1;
                if self.data.len() < MOST_CAPTIONS {
                    self.data.push(data);
                }
            }
            Err(flaw) => {
                self.bad_count += 1;
                if self.bad.len() < MOST_NAMED {
                    self.bad.push(Bad { line, flaw });
                }
            }
        }
    }
}

/// The lines of a text with their numbers, without the carriage returns at their
/// ends. What follows the last newline is a line only if it isn't empty.
pub fn lines(text: &[u8]) -> impl Iterator<Item = (usize, &[u8])> {
    let lines = text.split_inclusive(|&byte| byte == b'\n');
    let ended = lines.map(|line| {
        let line = line.strip_suffix(b"\n").unwrap_or(line);
        let end = line.iter().rposition(|&byte| byte != b'\r');
        line.get(..end.map_or(0, |last| last + 1))
            .unwrap_or_default()
    });
    (1..).zip(ended)
}

/// A line as text, with spaces for its tabs.
///
/// # Errors
///
/// [`Flaw::Encoding`] or [`Flaw::Control`].
pub fn clean(line: &[u8]) -> Result<String, Flaw> {
    let text = str::from_utf8(line).map_err(|_| Flaw::Encoding)?;
    let text = text.replace('\t', " ");
    match text.chars().find(|&char| is_hidden(char)) {
        Some(control) => Err(Flaw::Control(control)),
        None => Ok(text),
    }
}

/// The data of a caption with this text: filled up with zeros.
///
/// # Errors
///
/// [`Flaw::Long`].
pub fn data(text: &str) -> Result<Data, Flaw> {
    let mut data = [0; DATA_BYTES];
    let start = data.get_mut(..text.len()).ok_or(Flaw::Long(text.len()))?;
    start.copy_from_slice(text.as_bytes());
    Ok(data)
}

#[cfg(test)]
mod tests {
    use super::*;
    use crate::shown::filled;

    fn texts(captions: &Captions) -> Vec<&[u8]> {
        captions.data.iter().map(|data| filled(data)).collect()
    }

    #[test]
    fn each_line_is_a_caption() {
        let captions = Captions::read(b"\xEF\xBB\xBFone\r\n\ntwo\twords\r\r\nthree", false);
        let wanted: [&[u8]; 4] = [b"one", b"", b"two words", b"three"];
        assert_eq!(texts(&captions), wanted);
        assert_eq!((captions.count, captions.bad_count), (4, 0));
    }

    #[test]
    fn nothing_has_no_captions() {
        assert_eq!(Captions::read(b"", false).count, 0);
        assert_eq!(Captions::read(b"\xEF\xBB\xBF", false).count, 0);
        assert_eq!(Captions::read(b"\n", false).count, 1);
    }

    #[test]
    fn bad_lines_are_named() {
        let mut text = b"fine\n".to_vec();
        text.extend([b'x'; 64]);
        text.extend(b"\n");
        text.extend([b'x'; 65]);
        text.extend(b"\nbell \x07\nold \xE4\n");
        let captions = Captions::read(&text, false);
        let named: Vec<String> = captions.bad.iter().map(Bad::to_string).collect();
        assert_eq!(
            named,
            [
                "line 3: 65 bytes long, and a caption has at most 64",
                "line 4: a control character, U+0007",
                "line 5: not UTF-8",
            ]
        );
        assert_eq!((captions.count, captions.bad_count), (2, 3));
    }

    #[test]
    fn no_more_is_kept_than_is_wanted() {
        let captions = Captions::read(&vec![b'\n'; MOST_CAPTIONS + 7], false);
        assert_eq!(captions.count, MOST_CAPTIONS + 7);
        assert_eq!(captions.data.len(), MOST_CAPTIONS);
        let captions = Captions::read(&b"\x01\n".repeat(30), false);
        assert_eq!((captions.bad.len(), captions.bad_count), (MOST_NAMED, 30));
    }

    #[test]
    fn a_carriage_return_elsewhere_is_a_control_character() {
        let captions = Captions::read(b"a\rb\n", false);
        let bad = Bad {
            line: 1,
            flaw: Flaw::Control('\r'),
        };
        assert_eq!(captions.bad, [bad]);
    }
}
