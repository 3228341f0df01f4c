//! A report as a line of text, to be kept in a file.

use std::error::Error;
use std::fmt;

use super::Wear;

/// Why a text is no report.
#[derive(Clone, Debug, PartialEq, Eq)]
pub enum TextError {
    /// It has so many words, and not ten.
    Count(usize),
    /// This word is no whole number from 0 to 2⁶⁴ − 1, written in digits alone.
    Number(String),
    /// It is ten numbers, and these are no report:
    /// [`Refusal::Wear`](crate::Refusal::Wear).
    Report,
}

impl fmt::Display for TextError {
    fn fmt(&self, f: &mut fmt::Formatter<'_>) -> fmt::Result {
        match self {
            TextError::Count(count) => write!(f, "a wear report is ten numbers, not {count}"),
            TextError::Number(word) => write!(f, "{word:?} is not a number of a wear report"),
            TextError::Report => {
                f.write_str("these ten numbers don't add up to a wear report, or are too great")
            }
        }
    }
}

impl Error for TextError {}

/// The number that a word of digits is.
fn number(word: &str) -> Result<u64, TextError> {
    // `parse` would take a sign too.
    let digits = word.bytes().all(|byte| byte.is_ascii_digit());
    let parsed = if digits { word.parse().ok() } else { None };
    parsed.ok_or_else(|| TextError::Number(word.to_string()))
}

impl Wear {
    /// The ten numbers in decimal, with a space between each two.
    ///
    /// ```
    /// use sudoku::Wear;
    /// let mut wear = Wear::new();
    /// wear.add_result(&[0, 0, 3, 4], 11)?;
    /// assert_eq!(wear.to_text(), "1 4 2 0 0 1 1 0 1 0");
    /// assert_eq!(Wear::from_text(&wear.to_text()), Ok(wear));
    /// # Ok::<(), sudoku::Refusal>(())
    /// ```
    #[must_use]
    pub fn to_text(&self) -> String {
        self.numbers.map(|number| number.to_string()).join(" ")
    }

    /// The report that a text of ten decimal numbers is. Spaces and ends of
    /// lines stand between them, and may stand around them.
    ///
    /// ```
    /// use sudoku::{TextError, Wear};
    /// let wear = Wear::from_text("1 4\n2 0 0 1 1\n0 1 0\n");
    /// assert_eq!(wear.map(|wear| wear.lines()), Ok(4));
    ///
    /// let wrong = |text| Wear::from_text(text).err();
    /// assert_eq!(wrong("1 4 2"), Some(TextError::Count(3)));
    /// assert_eq!(wrong("1 4 2 0 0 1 1 0 1 x"), Some(TextError::Number("x".into())));
    /// assert_eq!(wrong("1 5 2 0 0 1 1 0 1 0"), Some(TextError::Report));
    /// ```
    ///
    /// # Errors
    ///
    /// The first of [`TextError`]'s that fits.
    pub fn from_text(text: &str) -> Result<Wear, TextError> {
        let words: Vec<&str> = text.split_ascii_whitespace().collect();
        let words: [&str; Wear::NUMBERS] = words
            .try_into()
            .map_err(|words: Vec<&str>| TextError::Count(words.len()))?;
        let mut numbers = [0; Wear::NUMBERS];
        for (to, word) in numbers.iter_mut().zip(words) {
            *to = number(word)?;
        }
        Wear::from_numbers(numbers).map_err(|_| TextError::Report)
    }
}
