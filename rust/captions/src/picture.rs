//! A store as a picture of characters: one for each caption.

use std::fmt::{self, Display, Formatter};

use sudoku::Mark;

use crate::marks::look;
use crate::terminal::Screen;

/// Spaces at the left, and between a row's number and its captions.
const GAP: usize = 2;

/// Rows that don't fit are folded at a multiple of this, if they can be.
const STEP: usize = 10;

/// The picture, with a legend.
pub struct Picture<'a> {
    /// The marks, row after row.
    pub marks: &'a [Mark],
    /// The columns.
    pub columns: usize,
    /// Where it is drawn.
    pub screen: Screen,
}

impl Display for Picture<'_> {
    fn fmt(&self, f: &mut Formatter<'_>) -> fmt::Result {
        let rows = self.marks.chunks(self.columns.max(1));
        let digits = rows.len().saturating_sub(1).to_string().len();
        let room = self.screen.width.saturating_sub(digits + 2 * GAP);
        let fold = fold(self.columns, room);
        let pens = Mark::ALL.map(|mark| Pen::new(mark, fold, self.screen));
        for (row, marks) in rows.enumerate() {
            let mut number = row.to_string();
            for part in marks.chunks(fold) {
                write!(f, "{:GAP$}{number:>digits$}{:GAP$}", "", "")?;
                for run in part.chunk_by(|one, next| one == next) {
                    pen(&pens, run).draw(f, run.len())?;
                }
                f.write_str("\n")?;
                number.clear();
            }
        }
        self.legend(f, &pens)
    }
}

impl Picture<'_> {
    /// A line with the letters that occur.
    fn legend(&self, f: &mut Formatter<'_>, pens: &[Pen]) -> fmt::Result {
        for mark in Mark::ALL {
            if self.marks.contains(&mark) {
                write!(f, "{:GAP$}", "")?;
                pen(pens, &[mark]).draw(f, 1)?;
                write!(f, " {mark}")?;
            }
        }
        f.write_str("\n")
    }
}

/// How many captions stand in a line.
fn fold(columns: usize, room: usize) -> usize {
    if columns <= room {
        return columns.max(1);
    }
    let folded = room - room % STEP;
    if folded > 0 { folded } else { room.max(1) }
}

/// The letters of a mark, as many as a line takes.
struct Pen {
    letters: String,
    width: usize,
    ansi: Option<&'static str>,
}

impl Pen {
    fn new(mark: Mark, most: usize, screen: Screen) -> Pen {
        let look = look(mark);
        let letter = if screen.utf8 { look.letter } else { look.plain };
        Pen {
            letters: letter.repeat(most),
            width: letter.len(),
            ansi: screen.colours.then_some(look.ansi),
        }
    }

    fn draw(&self, f: &mut Formatter<'_>, count: usize) -> fmt::Result {
        let letters = self.letters.get(..count * self.width).unwrap_or_default();
        match self.ansi {
            Some(ansi) => write!(f, "\x1b[{ansi}m{letters}\x1b[0m"),
            None => f.write_str(letters),
        }
    }
}

/// That of a run of one mark; the last, for faulty captions, if it isn't known.
fn pen<'a>(pens: &'a [Pen], run: &[Mark]) -> &'a Pen {
    const NONE: &Pen = &Pen {
        letters: String::new(),
        width: 0,
        ansi: None,
    };
    let number = run.first().map_or(0, |mark| mark.number());
    let known = pens.get(usize::from(number));
    known.or(pens.last()).unwrap_or(NONE)
}

#[cfg(test)]
mod tests {
    use super::*;

    const SCREEN: Screen = Screen {
        width: 80,
        colours: false,
        utf8: true,
    };

    fn drawn(digits: &str, columns: usize, screen: Screen) -> String {
        let numbers = digits.bytes().map(|digit| digit - b'0');
        let marks: Vec<Mark> = numbers.map(Mark::from_number).collect();
        let picture = Picture {
            marks: &marks,
            columns,
            screen,
        };
        picture.to_string()
    }

    #[test]
    fn each_caption_has_its_letter() {
        let picture = "  0  ··a\n  1  trX\n  · clean  a alone  t trial  r rebuilt  X faulty\n";
        assert_eq!(drawn("001234", 3, SCREEN), picture);
    }

    #[test]
    fn ascii_has_a_full_stop() {
        let screen = Screen {
            utf8: false,
            ..SCREEN
        };
        assert_eq!(
            drawn("0040", 2, screen),
            "  0  ..\n  1  X.\n  . clean  X faulty\n"
        );
    }

    #[test]
    fn wide_rows_are_folded() {
        let screen = Screen {
            width: 26,
            ..SCREEN
        };
        let digits = "0".repeat(22) + &"1".repeat(25);
        let digits = &digits[..46];
        // 26 less the margin of 5 leaves room for 21, which is folded at 20.
        let (dots, letters) = ("·".repeat(20), "a".repeat(20));
        let picture =
            format!("  0  {dots}\n     ··a\n  1  {letters}\n     aaa\n  · clean  a alone\n");
        assert_eq!(drawn(digits, 23, screen), picture);
    }

    #[test]
    fn folds_are_at_tens_where_there_is_room() {
        assert_eq!(fold(70, 75), 70);
        assert_eq!(fold(75, 75), 75);
        assert_eq!(fold(76, 75), 70);
        assert_eq!(fold(512, 10), 10);
        assert_eq!(fold(512, 9), 9);
        assert_eq!(fold(512, 0), 1);
        assert_eq!(fold(0, 0), 1);
    }

    #[test]
    fn colours_stand_around_runs() {
        let screen = Screen {
            colours: true,
            ..SCREEN
        };
        let picture = drawn("0044", 2, screen);
        let wanted = "  0  \x1b[2m··\x1b[0m\n  1  \x1b[1;31mXX\x1b[0m\n";
        assert!(picture.starts_with(wanted), "{picture:?}");
        assert!(picture.contains("  \x1b[2m·\x1b[0m clean  \x1b[1;31mX\x1b[0m faulty\n"));
    }

    #[test]
    fn nothing_has_an_empty_picture() {
        assert_eq!(drawn("", 0, SCREEN), "\n");
    }
}
