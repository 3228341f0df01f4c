//! What people read: captions, names and numbers in words.

use std::ffi::OsStr;
use std::fmt::{self, Display, Formatter};
use std::os::unix::ffi::OsStrExt;

/// Whether a character can't stand in a line of text: control characters, and
/// those that part lines and paragraphs. Marks of the direction of writing can:
/// Hebrew and Arabic captions have them.
pub fn is_hidden(char: char) -> bool {
    char.is_control() || matches!(char, '\u{2028}' | '\u{2029}')
}

/// Bytes as text. Control characters and what isn't UTF-8 stand there as `\xNN`,
/// the other hidden characters as `\u{NNNN}`, so that a caption stays one line and
/// no bytes of a store steer the terminal.
#[derive(Clone, Copy, Debug)]
pub struct Text<'a>(pub &'a [u8]);

impl Display for Text<'_> {
    fn fmt(&self, f: &mut Formatter<'_>) -> fmt::Result {
        for chunk in self.0.utf8_chunks() {
            for piece in chunk.valid().split_inclusive(is_hidden) {
                let plain = piece.trim_end_matches(is_hidden);
                f.write_str(plain)?;
                let hidden = piece.strip_prefix(plain).unwrap_or_default();
                hidden.chars().try_for_each(|char| write_hidden(f, char))?;
            }
            write_bytes(f, chunk.invalid())?;
        }
        Ok(())
    }
}

fn write_hidden(f: &mut Formatter<'_>, char: char) -> fmt::Result {
    if char.is_control() {
        return write_bytes(f, char.encode_utf8(&mut [0; 4]).as_bytes());
    }
    write!(f, "\\u{{{:04X}}}", u32::from(char))
}

fn write_bytes(f: &mut Formatter<'_>, bytes: &[u8]) -> fmt::Result {
    bytes.iter().try_for_each(|byte| write!(f, "\\x{byte:02X}"))
}

/// The data of a caption without the zeros that fill it up: none if it is empty.
pub fn filled(data: &[u8]) -> &[u8] {
    let end = data.iter().rposition(|&byte| byte != 0);
    let length = end.map_or(0, |last| last + 1);
    data.get(..length).unwrap_or_default()
}

/// A caption as text.
pub fn caption(data: &[u8]) -> Text<'_> {
    Text(filled(data))
}

/// A file's name as text.
pub fn name(file: &OsStr) -> Text<'_> {
    Text(file.as_bytes())
}

/// A file's name as a word for a shell, which can't be taken for an option.
pub fn shell_word(file: &OsStr) -> String {
    let start = if file.as_bytes().starts_with(b"-") {
        "./"
    } else {
        ""
    };
    let word = format!("{start}{}", name(file));
    let plain = |char: char| char.is_alphanumeric() || "_./,:=@%+-".contains(char);
    if !word.is_empty() && word.chars().all(plain) {
        return word;
    }
    format!("'{}'", word.replace('\'', "'\\''"))
}

/// A caption by its number, and its cue.
pub struct Cue(pub usize);

impl Display for Cue {
    fn fmt(&self, f: &mut Formatter<'_>) -> fmt::Result {
        write!(f, "caption {} (cue {})", self.0, self.0.saturating_add(1))
    }
}

/// A caption by its number, and where it stands.
#[derive(Clone, Copy, Debug)]
pub struct Place {
    /// Its number.
    pub number: usize,
    /// The columns of its store.
    pub columns: usize,
}

impl Place {
    /// Its row, counted from 0.
    pub fn row(self) -> usize {
        self.number / self.columns.max(1)
    }

    /// Its column, counted from 0.
    pub fn column(self) -> usize {
        self.number % self.columns.max(1)
    }
}

impl Display for Place {
    fn fmt(&self, f: &mut Formatter<'_>) -> fmt::Result {
        let (row, column) = (self.row(), self.column());
        write!(f, "{}, row {row}, column {column}", Cue(self.number))
    }
}

/// So many of a thing, such as `1 line` or `2 lines`.
pub struct Counted(pub u64, pub &'static str);

impl Display for Counted {
    fn fmt(&self, f: &mut Formatter<'_>) -> fmt::Result {
        let ending = match (self.0, self.1.ends_with('s')) {
            (1, _) => "",
            (_, true) => "es",
            (_, false) => "s",
        };
        write!(f, "{} {}{ending}", self.0, self.1)
    }
}

#[cfg(test)]
mod tests {
    use super::*;

    #[test]
    fn control_characters_are_shown_as_bytes() {
        let shown = |bytes: &[u8]| Text(bytes).to_string();
        assert_eq!(shown("’tis – ja".as_bytes()), "’tis – ja");
        assert_eq!(shown(b"\x1b[31mred\x07"), r"\x1B[31mred\x07");
        // U+0085, a control character of two bytes.
        assert_eq!(shown("a\u{85}b".as_bytes()), r"a\xC2\x85b");
        assert_eq!(shown(b"\n\n"), r"\x0A\x0A");
        assert_eq!(shown(b"a\xFFb\xC3"), r"a\xFFb\xC3");
        assert_eq!(shown(b""), "");
    }

    #[test]
    fn hidden_characters_are_shown_by_their_numbers() {
        let shown = |text: &str| Text(text.as_bytes()).to_string();
        assert_eq!(shown("a\u{2028}b"), r"a\u{2028}b");
        assert_eq!(shown("\u{7}\u{2029}"), r"\x07\u{2029}");
        assert_eq!(shown("\u{202B}שלום\u{202C}"), "\u{202B}שלום\u{202C}");
        let hidden = (0..=0x10_FFFF).filter_map(char::from_u32);
        let hidden = hidden.filter(|&char| is_hidden(char) && !char.is_control());
        let numbers: Vec<u32> = hidden.map(u32::from).collect();
        assert_eq!(numbers, [0x2028, 0x2029]);
    }

    #[test]
    fn names_are_words_for_a_shell() {
        let word = |name: &str| shell_word(OsStr::new(name));
        assert_eq!(word("a/b-1.store"), "a/b-1.store");
        assert_eq!(word("-a.store"), "./-a.store");
        assert_eq!(word("two words"), "'two words'");
        assert_eq!(word("-don't"), r"'./-don'\''t'");
        assert_eq!(word("$HOME"), "'$HOME'");
        assert_eq!(word("~x"), "'~x'");
    }

    #[test]
    fn zeros_at_the_end_are_dropped() {
        let mut data = [0; 64];
        assert_eq!(caption(&data).to_string(), "");
        assert_eq!(filled(&data), b"");
        data[..2].copy_from_slice(b"a ");
        assert_eq!(caption(&data).to_string(), "a ");
        data[3] = b'b';
        assert_eq!(caption(&data).to_string(), r"a \x00b");
    }

    #[test]
    fn a_place_has_four_numbers() {
        let place = Place {
            number: 17,
            columns: 4,
        };
        assert_eq!(place.to_string(), "caption 17 (cue 18), row 4, column 1");
    }

    #[test]
    fn one_of_a_thing_is_no_plural() {
        assert_eq!(Counted(1, "line").to_string(), "1 line");
        assert_eq!(Counted(0, "line").to_string(), "0 lines");
        assert_eq!(Counted(2, "pass").to_string(), "2 passes");
        assert_eq!(Counted(1, "pass").to_string(), "1 pass");
    }
}
