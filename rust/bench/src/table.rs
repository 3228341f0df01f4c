//! The rows of the table, in Markdown.

use std::array;
use std::fmt;

use crate::timing::{Range, Spread};

/// The head of the table beside peer and copy.
pub const HEAD: &str = "\
| | library | peer | copy | library / peer | library / copy | bar | met |
|---|---|---|---|---|---|---|---|";

/// The head of the table of one line wanted, each row beside its own measure.
pub const HEAD_ONE: &str = "\
| one line | library | measure | library / measure | bar | met |
|---|---|---|---|---|---|";

/// The head of the table of wear reports, each row beside its own measure.
pub const HEAD_WEAR: &str = "\
| wear | library | measure | library / measure | bar | met |
|---|---|---|---|---|---|";

/// The head of the table of store files, each row beside its own measure.
pub const HEAD_FILE: &str = "\
| store file | library | measure | library / measure | bar | met |
|---|---|---|---|---|---|";

/// The head of the table of forecasts, beside the repair of the same store and the
/// peer's forecast.
pub const HEAD_FORECAST: &str = "\
| forecast | library | repair | peer | library / repair | library / peer | bar | met |
|---|---|---|---|---|---|---|---|";

/// What one round or one run says of a row: the library's time and those that
/// it stands beside, then the library's through each of these.
pub type Figures = Vec<f64>;

/// The figures of a round with these times, the library's first.
pub fn figures(times: &[f64]) -> Figures {
    let (library, beside) = (times[0], &times[1..]);
    let ratios = beside.iter().map(|time| library / time);
    times.iter().copied().chain(ratios).collect()
}

/// The figures of these rounds, each time through so much.
pub fn scaled<const N: usize>(times: Vec<[f64; N]>, by: f64) -> Vec<Figures> {
    let scaled = |times: [f64; N]| figures(&times.map(|time| time / by));
    times.into_iter().map(scaled).collect()
}

/// Of rounds with the same times for each of several sizes: the figures of each
/// size, and then those of the growth, the largest of each time through the
/// smallest.
pub fn grown<const TIMES: usize, const SIZES: usize>(
    rounds: impl Iterator<Item = [[f64; TIMES]; SIZES]>,
) -> Vec<Vec<Figures>> {
    let mut rows = vec![vec![]; SIZES + 1];
    for sizes in rounds {
        for (row, times) in rows.iter_mut().zip(&sizes) {
            row.push(figures(times));
        }
        let growth: [f64; TIMES] = array::from_fn(|of| {
            let times = sizes.iter().map(|size| size[of]);
            times.clone().fold(0.0, f64::max) / times.fold(f64::INFINITY, f64::min)
        });
        rows[SIZES].push(figures(&growth));
    }
    rows
}

/// The medians of the figures of several rounds, of which there is at least
/// one: of the times, and of the rounds' ratios.
pub fn medians(rounds: &[Figures]) -> Figures {
    let median = |i| spread(rounds, i, Range::Whole).median;
    (0..rounds[0].len()).map(median).collect()
}

/// The median and the range of one of the figures.
fn spread(of: &[Figures], i: usize, range: Range) -> Spread {
    Spread::of(of.iter().map(|figures| figures[i]), range)
}

/// What a row's figures may be at most.
#[derive(Clone, Copy)]
pub enum Bar {
    /// So many times the peer's.
    Peer(f64),
    /// So many times the copy's.
    Copies(f64),
    /// So many times its measure's.
    Measure(f64),
    /// So many times that of repair, which is the first beside it.
    Repair(f64),
    /// So much itself.
    Itself(f64),
}

impl Bar {
    /// Which figure is judged, and what it may be at most.
    fn judged(self) -> (usize, f64) {
        match self {
            Bar::Peer(most) => (3, most),
            Bar::Copies(most) => (4, most),
            Bar::Measure(most) => (2, most),
            Bar::Repair(most) => (3, most),
            Bar::Itself(most) => (0, most),
        }
    }

    /// Whether the median meets the bar, and of several runs how many do.
    fn met(self, of: &[Figures], range: Range) -> String {
        let (i, most) = self.judged();
        let median = spread(of, i, range).median;
        let word = if median <= most { "yes" } else { "no" };
        match range {
            Range::Quartiles => word.to_string(),
            Range::Whole => {
                let runs = of.iter().filter(|figures| figures[i] <= most).count();
                format!("{word} ({runs} of {})", of.len())
            }
        }
    }
}

impl fmt::Display for Bar {
    fn fmt(&self, f: &mut fmt::Formatter<'_>) -> fmt::Result {
        match self {
            Bar::Peer(most) => write!(f, "{most:.2} of the peer"),
            Bar::Copies(most) => write!(f, "{most} copies"),
            Bar::Measure(most) => write!(f, "{most:.2} of the measure"),
            Bar::Repair(most) => write!(f, "{most:.2} of repair"),
            Bar::Itself(most) => write!(f, "{most}"),
        }
    }
}

/// A row of the table.
pub struct Row {
    /// What is done.
    pub name: String,
    /// The unit of its times; none for a row of plain numbers, which has no
    /// ratios.
    pub unit: Option<&'static str>,
    /// The bars for it.
    pub bars: &'static [Bar],
}

impl Row {
    /// The row of this name.
    pub fn new(name: &str, unit: Option<&'static str>, bars: &'static [Bar]) -> Row {
        Row {
            name: name.to_string(),
            unit,
            bars,
        }
    }

    /// The row in Markdown, with the figures of several rounds or runs.
    pub fn line(&self, of: &[Figures], range: Range) -> String {
        let cell = |i, digits, unit: &str| {
            let Spread { low, median, high } = spread(of, i, range);
            format!("{median:.digits$}{unit} ({low:.digits$} to {high:.digits$})")
        };
        let mut cells = vec![self.name.clone()];
        // Of the first of those beside it the ratio has one digit more, as has one
        // that is near 1, and more still if it is small.
        let beside = of[0].len() / 2;
        let digits = |i| match spread(of, beside + i, range).median {
            ratio if ratio < 0.1 => 4,
            ratio if i == 1 || ratio < 2.0 => 2,
            _ => 1,
        };
        let ratios = (1..=beside).map(|i| cell(beside + i, digits(i), ""));
        match self.unit {
            Some(unit) => {
                let unit = format!(" {unit}");
                cells.extend((0..=beside).map(|i| cell(i, 1, &unit)));
                cells.extend(ratios);
            }
            None => {
                cells.extend((0..=beside).map(|i| cell(i, 2, "")));
                cells.extend(vec![String::new(); beside]);
            }
        }
        let listed = |words: Vec<String>| words.join(", ");
        cells.push(listed(self.bars.iter().map(Bar::to_string).collect()));
        cells.push(listed(
            self.bars.iter().map(|bar| bar.met(of, range)).collect(),
        ));
        format!("| {} |", cells.join(" | "))
    }
}

#[cfg(test)]
mod tests {
    use super::*;

    const TABLES: [Bar; 2] = [Bar::Peer(0.85), Bar::Copies(6.0)];

    fn row() -> Row {
        Row::new("tables", Some("ms"), &TABLES)
    }

    /// The figures of these rounds.
    fn all<const N: usize, const M: usize>(rounds: [[f64; N]; M]) -> [Figures; M] {
        rounds.map(|times| figures(&times))
    }

    /// The clock slows down between rounds: each round's ratio is right, and
    /// their median is, where that of the medians is none of them.
    #[test]
    fn the_rounds_ratios_are_judged() {
        let rounds = [[8.0, 10.0, 2.0], [8.0, 10.0, 2.0], [16.0, 20.0, 4.0]];
        assert_eq!(medians(&all(rounds)), [8.0, 10.0, 2.0, 0.8, 4.0]);
        let rounds = [[8.0, 10.0, 2.0], [16.0, 18.0, 2.0], [16.0, 20.0, 2.0]];
        assert_eq!(medians(&all(rounds)), [16.0, 18.0, 2.0, 0.8, 8.0]);
        assert_eq!(
            row().line(&all(rounds), Range::Quartiles),
            "| tables | 16.0 ms (12.0 to 16.0) | 18.0 ms (14.0 to 19.0) | 2.0 ms (2.0 to 2.0) \
             | 0.80 (0.80 to 0.84) | 8.0 (6.0 to 8.0) | 0.85 of the peer, 6 copies | yes, no |"
        );
    }

    #[test]
    fn runs_that_meet_a_bar_are_counted() {
        let runs = [[8.0, 10.0, 2.0], [9.0, 10.0, 2.0], [7.0, 10.0, 1.0]];
        assert_eq!(
            row().line(&all(runs), Range::Whole),
            "| tables | 8.0 ms (7.0 to 9.0) | 10.0 ms (10.0 to 10.0) | 2.0 ms (1.0 to 2.0) \
             | 0.80 (0.70 to 0.90) | 4.5 (4.0 to 7.0) | 0.85 of the peer, 6 copies \
             | yes (2 of 3), yes (2 of 3) |"
        );
        let growth = Row::new("growth", None, &[Bar::Itself(1.3)]);
        assert_eq!(
            growth.line(&all([[1.15, 1.2, 4.0]]), Range::Quartiles),
            "| growth | 1.15 (1.15 to 1.15) | 1.20 (1.20 to 1.20) | 4.00 (4.00 to 4.00) \
             |  |  | 1.3 | yes |"
        );
    }

    #[test]
    fn a_row_beside_its_measure() {
        let one = Row::new("alone", Some("ns"), &[Bar::Measure(1.2)]);
        assert_eq!(
            one.line(&all([[5.0, 4.0], [9.0, 8.0]]), Range::Whole),
            "| alone | 7.0 ns (5.0 to 9.0) | 6.0 ns (4.0 to 8.0) | 1.19 (1.12 to 1.25) \
             | 1.20 of the measure | yes (1 of 2) |"
        );
    }

    #[test]
    fn a_row_beside_repair_and_peer() {
        let forecast = Row::new("forecast", Some("µs"), &[Bar::Repair(0.05)]);
        assert_eq!(
            forecast.line(&all([[40.0, 8000.0, 32.0]]), Range::Quartiles),
            "| forecast | 40.0 µs (40.0 to 40.0) | 8000.0 µs (8000.0 to 8000.0) \
             | 32.0 µs (32.0 to 32.0) | 0.0050 (0.0050 to 0.0050) | 1.25 (1.25 to 1.25) \
             | 0.05 of repair | yes |"
        );
    }

    #[test]
    fn growth_is_that_of_each_round() {
        let rounds = [
            [[1.0, 10.0, 2.0], [2.0, 10.0, 4.0], [4.0, 5.0, 1.0]],
            [[3.0, 1.0, 1.0]; 3],
        ];
        let due = [
            all([[1.0, 10.0, 2.0], [3.0, 1.0, 1.0]]),
            all([[2.0, 10.0, 4.0], [3.0, 1.0, 1.0]]),
            all([[4.0, 5.0, 1.0], [3.0, 1.0, 1.0]]),
            all([[4.0, 2.0, 4.0], [1.0; 3]]),
        ];
        assert_eq!(grown(rounds.into_iter()), due);
        // Two times for each of two sizes.
        let due = [[[8.0, 3.0]], [[4.0, 6.0]], [[2.0, 2.0]]].map(all);
        assert_eq!(grown([[[8.0, 3.0], [4.0, 6.0]]].into_iter()), due);
    }

    #[test]
    fn a_small_ratio_has_more_digits() {
        let small = Row::new("addition", Some("µs"), &[Bar::Measure(0.05)]);
        assert_eq!(
            small.line(&all([[20.0, 10000.0], [32.0, 8000.0]]), Range::Whole),
            "| addition | 26.0 µs (20.0 to 32.0) | 9000.0 µs (8000.0 to 10000.0) \
             | 0.0030 (0.0020 to 0.0040) | 0.05 of the measure | yes (2 of 2) |"
        );
    }
}
