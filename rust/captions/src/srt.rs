//! Captions from an .srt file: one for each cue.

use crate::text::{Captions, Flaw, clean, data};

/// What stands between the two times of a timing line.
const ARROW: &[u8] = b" --> ";

/// Whether lines look like an .srt file: the first that isn't blank is a number,
/// and the next a timing line.
pub fn is_like<'a>(lines: impl Iterator<Item = (usize, &'a [u8])>) -> bool {
    let mut lines = lines
        .map(|(_, line)| line)
        .skip_while(|line| is_blank(line));
    lines.next().is_some_and(is_number) && lines.next().is_some_and(is_timing)
}

/// The captions of its lines.
pub fn captions<'a>(lines: impl Iterator<Item = (usize, &'a [u8])>) -> Captions {
    let mut reader = Reader::default();
    for (number, line) in lines {
        reader.take(number, line);
    }
    reader.end();
    reader.captions
}

fn is_blank(line: &[u8]) -> bool {
    line.trim_ascii().is_empty()
}

fn is_number(line: &[u8]) -> bool {
    !is_blank(line) && line.trim_ascii().iter().all(u8::is_ascii_digit)
}

/// A time, an arrow and whatever follows.
fn is_timing(line: &[u8]) -> bool {
    let arrow = line.windows(ARROW.len()).position(|part| part == ARROW);
    let time = arrow.and_then(|at| line.get(..at)).unwrap_or_default();
    let allowed = |byte: &u8| byte.is_ascii_digit() || b":,.".contains(byte);
    !is_blank(time) && time.trim_ascii().iter().all(allowed)
}

/// Where the reader is.
#[derive(Default)]
enum At {
    /// Between two cues.
    #[default]
    Between,
    /// After the number of a cue, which stood in this line.
    Numbered(usize),
    /// In the text of a cue.
    Cue(Cue),
    /// In lines that are no cue, until a blank one ends them.
    Astray,
}

/// The text of a cue, its lines joined by spaces.
struct Cue {
    /// The line where it begins: that of the times while there is none.
    line: usize,
    text: Option<String>,
    bad: bool,
}

#[derive(Default)]
struct Reader {
    at: At,
    captions: Captions,
}

impl Reader {
    fn take(&mut self, number: usize, line: &[u8]) {
        let at = std::mem::take(&mut self.at);
        self.at = match at {
            at if is_blank(line) => {
                self.finish(at);
                At::Between
            }
            At::Cue(cue) => self.text(cue, number, line),
            _ if is_timing(line) => self.timing(number, line),
            At::Astray => At::Astray,
            At::Between if is_number(line) => At::Numbered(number),
            At::Between => self.astray(number, line),
            At::Numbered(first) => {
                self.captions.add(first, Err(Flaw::NoTiming));
                At::Astray
            }
        };
    }

    /// The times aren't kept, but they are text too.
    fn timing(&mut self, number: usize, line: &[u8]) -> At {
        let bad = str::from_utf8(line).is_err();
        if bad {
            self.captions.add(number, Err(Flaw::Encoding));
        }
        At::Cue(Cue {
            line: number,
            text: None,
            bad,
        })
    }

    fn astray(&mut self, number: usize, line: &[u8]) -> At {
        let text = str::from_utf8(line);
        let flaw = text.map_or(Flaw::Encoding, |_| Flaw::NoTiming);
        self.captions.add(number, Err(flaw));
        At::Astray
    }

    fn text(&mut self, mut cue: Cue, number: usize, line: &[u8]) -> At {
        let cleaned = match clean(line) {
            Ok(_) if is_timing(line) => Err(Flaw::SecondTiming),
            cleaned => cleaned,
        };
        match (cleaned, &mut cue.text) {
            (Ok(more), Some(text)) => {
                text.push(' ');
                text.push_str(&more);
            }
            (Ok(more), none) => {
                *none = Some(more);
                cue.line = number;
            }
            (Err(flaw), _) => {
                cue.bad = true;
                self.captions.add(number, Err(flaw));
            }
        }
        At::Cue(cue)
    }

    fn finish(&mut self, at: At) {
        match at {
            At::Between | At::Astray => {}
            At::Numbered(number) => self.captions.add(number, Err(Flaw::NoTiming)),
            At::Cue(cue) if cue.bad => {}
            At::Cue(cue) => {
                let text = cue.text.unwrap_or_default();
                self.captions.add(cue.line, data(&text));
            }
        }
    }

    fn end(&mut self) {
        let at = std::mem::take(&mut self.at);
        self.finish(at);
    }
}

#[cfg(test)]
mod tests {
    use super::*;
    use crate::shown::filled;
    use crate::text::{Bad, lines};

    fn read(text: &str) -> Captions {
        captions(lines(text.as_bytes()))
    }

    fn texts(captions: &Captions) -> Vec<&str> {
        let texts = captions
            .data
            .iter()
            .map(|data| str::from_utf8(filled(data)));
        texts.map(|text| text.unwrap_or("?")).collect()
    }

    fn bad(captions: &Captions) -> Vec<(usize, Flaw)> {
        let bad = captions.bad.iter();
        bad.map(|&Bad { line, flaw }| (line, flaw)).collect()
    }

    const TWO: &str = "\
1
00:00:01,000 --> 00:00:03,500
To be, or not to be,
that is the question:

2
00:00:04,000 --> 00:00:05,000 X1:0 X2:9

3
00:00:06.000 --> 00:00:07.000
 5 ";

    #[test]
    fn each_cue_is_a_caption() {
        let captions = read(TWO);
        let wanted = ["To be, or not to be, that is the question:", "", " 5 "];
        assert_eq!(texts(&captions), wanted);
        assert_eq!(captions.bad, []);
    }

    #[test]
    fn a_file_is_known_by_its_looks() {
        let like = |text: &str| is_like(lines(text.as_bytes()));
        assert!(like(TWO));
        assert!(like("\n \n1\n0 --> 1\n"));
        assert!(!like("1\n\n0 --> 1\n"));
        assert!(!like("one\n0 --> 1\n"));
        assert!(!like("1\nfrom here --> there\n"));
        assert!(!like(""));
    }

    #[test]
    fn a_number_may_be_missing() {
        assert_eq!(texts(&read("0 --> 1\na\n\n2\n1 --> 2\nb")), ["a", "b"]);
    }

    #[test]
    fn a_cue_without_times_is_bad() {
        let captions = read("1\n0 --> 1\na\n\n2\nb\nc\n\nd\n\n3\n\n4");
        let wanted = [5, 9, 11, 13].map(|line| (line, Flaw::NoTiming));
        assert_eq!(bad(&captions), wanted);
        assert_eq!(texts(&captions), ["a"]);
    }

    #[test]
    fn cues_that_nothing_parts_are_bad() {
        let captions = read("1\n0 --> 1\na\n2\n1 --> 2\nb\n");
        assert_eq!(bad(&captions), [(5, Flaw::SecondTiming)]);
        assert_eq!(captions.count, 0);
    }

    #[test]
    fn a_long_cue_is_named_by_its_first_line_of_text() {
        let line = "x".repeat(40);
        let captions = read(&format!("1\n0 --> 1\n{line}\n{line}\n"));
        assert_eq!(bad(&captions), [(3, Flaw::Long(81))]);
    }

    #[test]
    fn all_of_it_must_be_text() {
        let text = b"1\n0 --> \xFF\nfine\n\n\xFF\n\n2\n1 --> 2\nb\n";
        let captions = captions(lines(text));
        assert_eq!(bad(&captions), [(2, Flaw::Encoding), (5, Flaw::Encoding)]);
        assert_eq!(texts(&captions), ["b"]);
    }

    #[test]
    fn bad_text_is_named_by_its_own_line() {
        let captions = read("1\n0 --> 1\nfine\nbell \x07\n\n2\n1 --> 2\nb\n");
        assert_eq!(bad(&captions), [(4, Flaw::Control('\x07'))]);
        assert_eq!(texts(&captions), ["b"]);
    }
}
