//! What people see of a mark and of an outcome.

use sudoku::{Mark, Outcome};

/// How a mark looks in a picture, and what it says.
#[derive(Clone, Copy, Debug)]
pub struct Look {
    /// Its letter.
    pub letter: &'static str,
    /// Its letter where there is only ASCII.
    pub plain: &'static str,
    /// Its colour in a terminal.
    pub ansi: &'static str,
    /// Its colour in an SVG.
    pub fill: &'static str,
    /// The colour of its letter there.
    pub ink: &'static str,
    /// What it says of the caption.
    pub says: &'static str,
}

/// That of this mark. One that isn't known counts as faulty.
pub fn look(mark: Mark) -> Look {
    let (letter, ansi, fill, ink, says) = match mark {
        Mark::Clean => ("·", "2", "#dde5e0", "#5b6b62", "correct as found"),
        Mark::Rewritten => (
            "a",
            "36",
            "#35a7bd",
            "#ffffff",
            "one damaged bit or Hamming bits: rewritten by itself",
        ),
        Mark::Trial => (
            "t",
            "34",
            "#2f5fc4",
            "#ffffff",
            "mended by trial against a row or column",
        ),
        Mark::Rebuilt => (
            "r",
            "33",
            "#f0b429",
            "#3d2c00",
            "rebuilt from the rest of a row or column",
        ),
        Mark::Faulty | Mark::Other(_) => ("X", "1;31", "#c92a2a", "#ffffff", "lost"),
    };
    Look {
        letter,
        plain: if letter.is_ascii() { letter } else { "." },
        ansi,
        fill,
        ink,
        says,
    }
}

/// What an outcome says of the captions.
pub fn meaning(outcome: Outcome) -> &'static str {
    match outcome {
        Outcome::Done => "every caption is whole",
        Outcome::Left => "some captions are lost",
        Outcome::Differs => "lines and parity disagree: trust no caption",
    }
}
