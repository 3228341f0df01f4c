//! What a check found, for programs.

use std::ffi::OsStr;
use std::fmt::{self, Display, Formatter, Write};

use sudoku::{FileError, Mark, Repaired};

use crate::failure::Reason;
use crate::lost::{Lost, lost};
use crate::marks::meaning;
use crate::shown::is_hidden;

/// A text as JSON writes it, in quotes.
struct Text<'a>(&'a str);

impl Display for Text<'_> {
    fn fmt(&self, f: &mut Formatter<'_>) -> fmt::Result {
        f.write_char('"')?;
        for char in self.0.chars() {
            match char {
                '"' | '\\' => write!(f, "\\{char}")?,
                char if is_hidden(char) => write!(f, "\\u{:04x}", u32::from(char))?,
                char => f.write_char(char)?,
            }
        }
        f.write_char('"')
    }
}

/// The object of a file.
pub struct Entry<'a> {
    /// Its name as it was given.
    pub file: &'a OsStr,
    /// What repair gave of it, or why it wasn't had.
    pub found: Result<&'a Repaired, &'a FileError>,
}

impl Display for Entry<'_> {
    fn fmt(&self, f: &mut Formatter<'_>) -> fmt::Result {
        let file = self.file.to_string_lossy();
        write!(f, "{{\"file\":{}", Text(&file))?;
        match self.found {
            Ok(repaired) => write_found(f, repaired)?,
            Err(FileError::Io(error)) => {
                let words = Reason(error).to_string();
                write!(f, ",\"answer\":null,\"error\":{}", Text(&words))?;
            }
            Err(error) => {
                let answer = error.refusal().map_or(0, |refusal| refusal.number());
                write_answer(f, answer, &error.to_string())?;
            }
        }
        f.write_char('}')
    }
}

fn write_answer(f: &mut Formatter<'_>, answer: u32, meaning: &str) -> fmt::Result {
    write!(f, ",\"answer\":{answer},\"meaning\":{}", Text(meaning))
}

fn write_found(f: &mut Formatter<'_>, repaired: &Repaired) -> fmt::Result {
    let (store, outcome) = (&repaired.store, repaired.outcome);
    write_answer(f, outcome.number(), meaning(outcome))?;
    write!(
        f,
        ",\"rows\":{},\"columns\":{}",
        store.rows(),
        store.columns()
    )?;
    write!(f, ",\"captions\":{}", store.count())?;
    for mark in Mark::ALL {
        write!(f, ",\"{mark}\":{}", repaired.counts.of(mark))?;
    }
    write!(f, ",\"passes\":{},\"marks\":[", repaired.passes)?;
    write_marks(f, &repaired.marks, store.columns())?;
    f.write_str("],\"lost\":[")?;
    for (n, lost) in lost(repaired).enumerate() {
        f.write_str(comma(n))?;
        write_lost(f, &lost)?;
    }
    f.write_char(']')
}

/// A string of digits for each row.
fn write_marks(f: &mut Formatter<'_>, marks: &[Mark], columns: usize) -> fmt::Result {
    let mut digits = String::with_capacity(columns);
    for (n, row) in marks.chunks(columns.max(1)).enumerate() {
        digits.clear();
        // No mark has a number above 4.
        let numbers = row.iter().map(|mark| mark.number().min(9));
        digits.extend(numbers.map(|number| char::from(b'0' + number)));
        write!(f, "{}\"{digits}\"", comma(n))?;
    }
    Ok(())
}

fn write_lost(f: &mut Formatter<'_>, lost: &Lost<'_>) -> fmt::Result {
    let place = lost.place;
    let number = place.number;
    write!(f, "{{\"number\":{number},\"cue\":{}", number + 1)?;
    write!(f, ",\"row\":{},\"column\":{}", place.row(), place.column())?;
    match lost.after {
        Some(text) => write!(f, ",\"after\":{}}}", Text(&text.to_string())),
        None => f.write_str(",\"after\":null}"),
    }
}

/// What stands before this thing of a list.
pub fn comma(n: usize) -> &'static str {
    if n == 0 { "" } else { "," }
}

#[cfg(test)]
mod tests {
    use super::*;
    use std::io;
    use sudoku::{Refusal, Store};

    fn entry(found: Result<&Repaired, &FileError>) -> String {
        let file = OsStr::new("a\"b");
        Entry { file, found }.to_string()
    }

    #[test]
    fn texts_are_escaped() {
        let text = Text("say \"\\\" \n\u{7f}\u{9b}\u{2028} ’").to_string();
        assert_eq!(text, r#""say \"\\\" \u000a\u007f\u009b\u2028 ’""#);
    }

    #[test]
    fn a_store_is_told_whole() -> Result<(), Refusal> {
        let mut store = Store::from_data(2, 2, &[[b'"'; 64], [2; 64], [3; 64], [4; 64]])?;
        // Line 1 and both its parity lines: nothing can mend it.
        store.line_bytes_mut()[sudoku::LINE_BYTES] ^= 3;
        store.row_table_mut()[0] ^= 3;
        store.column_table_mut()[sudoku::LINE_BYTES] ^= 3;
        let quotes = "\\\"".repeat(64);
        let wanted = format!(
            concat!(
                r#"{{"file":"a\"b","answer":11,"meaning":"some captions are lost","#,
                r#""rows":2,"columns":2,"captions":4,"#,
                r#""clean":3,"alone":0,"trial":0,"rebuilt":0,"faulty":1,"passes":1,"#,
                r#""marks":["04","00"],"#,
                r#""lost":[{{"number":1,"cue":2,"row":0,"column":1,"after":"{}"}}]}}"#,
            ),
            quotes
        );
        assert_eq!(entry(Ok(&store.repair())), wanted);
        Ok(())
    }

    #[test]
    fn a_refusal_has_its_number() {
        let short = FileError::Short { bytes: 7 };
        let told = entry(Err(&short));
        let start = r#"{"file":"a\"b","answer":1,"meaning":""#;
        assert!(told.starts_with(start), "{told}");
        let missing = FileError::Io(io::Error::from_raw_os_error(2));
        assert_eq!(
            entry(Err(&missing)),
            r#"{"file":"a\"b","answer":null,"error":"No such file or directory"}"#
        );
    }
}
