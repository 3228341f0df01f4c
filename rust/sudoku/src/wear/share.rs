//! Shares: compared by the proved library, and shown in percent.

use std::cmp::Ordering;
use std::fmt;

use crate::{Mark, Wear, c};

/// The share of rebuilt lines of a report; zero where there are no lines.
///
/// Shares are compared exactly, in whole numbers, by the proved library. Reports
/// that differ may have equal shares: so it is the share that is ordered, and
/// not the report. Shown with `{}` it is a [`Percent`], in which shares that
/// differ may look alike.
///
/// ```
/// use sudoku::Wear;
/// // 1 of 3,000,001 lines, and 1 of 3,000,000.
/// let less = Wear::from_numbers([1, 3_000_001, 3_000_000, 0, 0, 1, 0, 1, 0, 0])?;
/// let more = Wear::from_numbers([1, 3_000_000, 2_999_999, 0, 0, 1, 0, 1, 0, 0])?;
/// assert!(less.rebuilt_share() < more.rebuilt_share());
/// assert_eq!(less.rebuilt_share().to_string(), "<0.01 %");
///
/// // No lines count as share zero.
/// let none = Wear::from_numbers([1, 4, 4, 0, 0, 0, 0, 1, 0, 0])?;
/// assert_ne!(none, Wear::new());
/// assert_eq!(none.rebuilt_share(), Wear::new().rebuilt_share());
/// # Ok::<(), sudoku::Refusal>(())
/// ```
#[derive(Clone, Copy, Debug)]
pub struct Share {
    of: Wear,
}

impl Share {
    /// That of a report.
    pub(super) fn of(of: Wear) -> Share {
        Share { of }
    }
}

impl Ord for Share {
    fn cmp(&self, other: &Share) -> Ordering {
        // Both are reports, so that the answer is always 0.
        let (_, order) = c::wear_compare(&self.of.numbers, &other.of.numbers);
        match order {
            1 => Ordering::Less,
            2 => Ordering::Greater,
            _ => Ordering::Equal,
        }
    }
}

impl PartialOrd for Share {
    fn partial_cmp(&self, other: &Share) -> Option<Ordering> {
        Some(self.cmp(other))
    }
}

impl PartialEq for Share {
    fn eq(&self, other: &Share) -> bool {
        self.cmp(other).is_eq()
    }
}

impl Eq for Share {}

impl fmt::Display for Share {
    fn fmt(&self, f: &mut fmt::Formatter<'_>) -> fmt::Result {
        Percent::of(self.of.lines_with(Mark::Rebuilt), self.of.lines()).fmt(f)
    }
}

/// A part of a whole, to be shown with `{}` as percent with two decimals.
///
/// It is rounded in whole numbers, halves up, but never to an end of the scale:
/// `0.00 %` is shown for none alone, `100.00 %` for all alone. None of nothing
/// is none.
///
/// ```
/// use sudoku::Percent;
/// let shown = |part, whole| Percent::of(part, whole).to_string();
/// assert_eq!(shown(2, 3), "66.67 %");
/// assert_eq!(shown(0, 0), "0.00 %");
/// assert_eq!(shown(1, 1_000_000), "<0.01 %");
/// assert_eq!(shown(999_999, 1_000_000), ">99.99 %");
/// assert_eq!(shown(7, 7), "100.00 %");
/// ```
#[derive(Clone, Copy, Debug)]
pub struct Percent {
    part: u64,
    whole: u64,
}

impl Percent {
    /// So many out of so many; a part that is more than the whole counts as all
    /// of it.
    ///
    /// ```
    /// use sudoku::Percent;
    /// assert_eq!(Percent::of(3, 2).to_string(), "100.00 %");
    /// // All of nothing is none.
    /// assert_eq!(Percent::of(3, 0).to_string(), "0.00 %");
    /// ```
    #[must_use]
    pub const fn of(part: u64, whole: u64) -> Percent {
        // `min` can't be called in a `const fn`.
        let part = if part < whole { part } else { whole };
        Percent { part, whole }
    }

    /// Hundredths of a percent, rounded, halves up.
    fn hundredths(self) -> u128 {
        let (part, whole) = (u128::from(self.part), u128::from(self.whole));
        (part * 20_000 + whole)
            .checked_div(2 * whole)
            .unwrap_or_default()
    }
}

impl fmt::Display for Percent {
    fn fmt(&self, f: &mut fmt::Formatter<'_>) -> fmt::Result {
        match self.hundredths() {
            0 if self.part > 0 => f.pad("<0.01 %"),
            10_000 if self.part < self.whole => f.pad(">99.99 %"),
            rounded => f.pad(&format!("{}.{:02} %", rounded / 100, rounded % 100)),
        }
    }
}
