//! The picture of a store in the terminal, taken apart.

use super::Checked;

/// The characters for the marks 0 to 4 where the locale is UTF-8.
pub const CHARACTERS: [char; 5] = ['·', 'a', 't', 'r', 'X'];

/// The picture.
pub struct Picture {
    /// The characters of each row.
    pub rows: Vec<String>,
    /// The line that explains the characters.
    pub legend: String,
    /// How many characters the longest line of a row has.
    pub widest: usize,
    /// How many characters stand before each part of a row.
    pub indents: Vec<usize>,
}

impl Picture {
    /// Takes the lines of a picture apart: rows with their numbers, each folded
    /// into lines that are indented alike, then the legend.
    pub fn of(lines: &[String], columns: usize) -> Picture {
        let (legend, lines) = lines.split_last().expect("a picture");
        let mut picture = Picture {
            rows: Vec::new(),
            legend: legend.clone(),
            widest: 0,
            indents: Vec::new(),
        };
        for line in lines {
            picture.take(line, columns);
        }
        picture
    }

    fn take(&mut self, line: &str, columns: usize) {
        let (before, characters) = parts(line);
        match before.trim() {
            "" => {
                let row = self.rows.last_mut().expect("a row comes first");
                assert!(row.chars().count() < columns, "{line:?}");
                *row += characters;
            }
            number => {
                assert_eq!(number.parse(), Ok(self.rows.len()), "{line:?}");
                self.rows.push(characters.to_string());
            }
        }
        self.widest = self.widest.max(line.chars().count());
        self.indents.push(before.chars().count());
    }

    /// Whether this picture, drawn with these characters, is the store's.
    pub fn agrees(&self, expected: &Checked, characters: [char; 5]) {
        let character = |digit: char| characters[digit as usize - '0' as usize];
        let row = |row: String| row.chars().map(character).collect::<String>();
        let rows: Vec<String> = expected.digits().into_iter().map(row).collect();
        assert_eq!(self.rows, rows);
        self.legend_agrees(expected, characters);
        let first = self.indents[0];
        assert!(self.indents.iter().all(|&indent| indent == first));
    }

    /// Whether the legend has exactly the characters that occur.
    fn legend_agrees(&self, expected: &Checked, characters: [char; 5]) {
        let words: Vec<&str> = self.legend.split_whitespace().collect();
        for (mark, character) in (0..).zip(characters) {
            let named = words.contains(&character.to_string().as_str());
            assert_eq!(named, expected.count(mark) > 0, "{:?}", self.legend);
        }
    }
}

/// What stands before a row's characters, and these.
fn parts(line: &str) -> (&str, &str) {
    let start = line.trim_end().rfind(' ').map_or(0, |space| space + 1);
    let (before, characters) = line.split_at(start);
    let known = |c: char| c == '.' || CHARACTERS.contains(&c);
    assert!(!characters.is_empty(), "{line:?}");
    assert!(characters.chars().all(known), "{line:?}");
    (before, characters)
}
