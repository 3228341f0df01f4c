//! What the second implementation makes of a store, in the words of the page.

use std::fmt;

use reference::draw::{Outcome, Store};
use reference::{DATA_BYTES, answer, mark};

use super::text::shown;

/// The words for the marks 0 to 4, each with what it says.
pub const MARKS: [(&str, &str); 5] = [
    ("clean", "correct as found"),
    (
        "alone",
        "one damaged bit or Hamming bits: rewritten by itself",
    ),
    ("trial", "mended by trial against a row or column"),
    ("rebuilt", "rebuilt from the rest of a row or column"),
    ("faulty", "lost"),
];

/// A store as found, and what repair gives for it.
pub struct Checked {
    /// As found.
    pub store: Store,
    /// Repaired.
    pub repaired: Outcome,
}

/// A caption that is lost, or may be.
#[derive(Clone, Debug, PartialEq, Eq)]
pub struct Lost {
    /// Its number.
    pub number: usize,
    /// Its row.
    pub row: usize,
    /// Its column.
    pub column: usize,
    /// The last whole caption before it that isn't empty.
    pub after: Option<String>,
}

/// What an answer of repair says.
pub fn meaning(answer: u32) -> &'static str {
    match answer {
        answer::DONE => "every caption is whole",
        answer::LEFT => "some captions are lost",
        _ => "lines and parity disagree: trust no caption",
    }
}

/// The store in a file, or the answer that refuses it.
pub fn opened(file: &[u8]) -> Result<Store, u32> {
    let parts = reference::check_file(file);
    if parts.answer != answer::DONE {
        return Err(parts.answer);
    }
    Ok(Store {
        rows: parts.rows,
        columns: parts.columns,
        lines: file[parts.lines].to_vec(),
        row_table: file[parts.row_table].to_vec(),
        column_table: file[parts.column_table].to_vec(),
    })
}

impl Checked {
    /// The store as the second implementation repairs it.
    pub fn of(store: Store) -> Checked {
        let repaired = store.repaired(0);
        Checked { store, repaired }
    }

    /// The same of a store in a file.
    pub fn opened(file: &[u8]) -> Result<Checked, u32> {
        opened(file).map(Checked::of)
    }

    /// The answer.
    pub fn answer(&self) -> u32 {
        self.repaired.answer
    }

    /// The exit status that the answer asks for.
    pub fn status(&self) -> i32 {
        i32::from(self.answer() != answer::DONE)
    }

    /// How many lines have this mark.
    pub fn count(&self, mark: u8) -> usize {
        let marks = self.repaired.marks.iter();
        marks.filter(|&&of| of == mark).count()
    }

    /// The marks of each row, a digit for each line.
    pub fn digits(&self) -> Vec<String> {
        let digit = |mark: &u8| char::from(b'0' + mark);
        let rows = self.repaired.marks.chunks(self.store.columns);
        rows.map(|row| row.iter().map(digit).collect()).collect()
    }

    /// The repaired store as a file.
    pub fn new_file(&self) -> Vec<u8> {
        let repaired = Store {
            lines: self.repaired.lines.clone(),
            row_table: self.repaired.row_table.clone(),
            column_table: self.repaired.column_table.clone(),
            ..self.store
        };
        repaired.file()
    }

    /// The captions as they are shown; none where one is lost.
    pub fn captions(&self) -> Vec<Option<String>> {
        let lines = self.repaired.lines.chunks(reference::LINE_BYTES);
        let marked = lines.zip(&self.repaired.marks);
        let caption = |(line, mark): (&[u8], &u8)| {
            (*mark != mark::FAULTY).then(|| shown(&line[..DATA_BYTES]))
        };
        marked.map(caption).collect()
    }

    /// The captions that are lost.
    pub fn lost(&self) -> Vec<Lost> {
        let mut after = None;
        let mut lost = Vec::new();
        for (number, caption) in self.captions().into_iter().enumerate() {
            match caption {
                None => lost.push(Lost {
                    after: after.clone(),
                    ..Lost::at(number, self.store.columns)
                }),
                Some(text) => {
                    let text = text.trim_end_matches(' ');
                    after = Some(text.to_string())
                        .filter(|_| !text.is_empty())
                        .or(after);
                }
            }
        }
        lost
    }

    /// The first lines of the report, each without spaces that only line it up.
    pub fn head(&self, name: &str) -> Vec<String> {
        let (rows, columns) = self.store.sides();
        let count = self.store.count();
        let mut head = vec![format!(
            "{name}: {rows} rows and {columns} columns, {count} captions"
        )];
        for (mark, (word, says)) in (0..).zip(MARKS) {
            head.push(format!("{word} {} {says}", self.count(mark)));
        }
        head.push(format!("passes {}", self.repaired.passes));
        let answer = self.answer();
        head.push(format!("answer {answer} {}", meaning(answer)));
        head
    }
}

impl Lost {
    /// The caption of this number, with nothing before it.
    pub fn at(number: usize, columns: usize) -> Lost {
        Lost {
            number,
            row: number / columns,
            column: number % columns,
            after: None,
        }
    }
}

impl fmt::Display for Lost {
    fn fmt(&self, f: &mut fmt::Formatter<'_>) -> fmt::Result {
        let (n, cue) = (self.number, self.number + 1);
        let (row, column) = (self.row, self.column);
        write!(f, "caption {n} (cue {cue}), row {row}, column {column}")?;
        match &self.after {
            Some(text) => write!(f, ", after \"{text}\""),
            None => Ok(()),
        }
    }
}
