//! Rounds in which several things are timed one after another, and what many
//! figures come to.

use std::time::{Duration, Instant};

/// Rounds of each figure at most.
pub const ROUNDS: usize = 51;

/// Rounds after which nothing more is timed if they took longer than `LONG`.
const FEWEST: usize = 11;
const LONG: Duration = Duration::from_secs(10);

/// What is timed in a round where a row has a measure of its own.
#[derive(Clone, Copy)]
pub enum Timed {
    /// The library.
    Library,
    /// What it is held against.
    Measure,
}

/// Both, in the order of the table.
pub const BOTH: [Timed; 2] = [Timed::Library, Timed::Measure];

/// The time of each thing in each round, in nanoseconds. Each round does them
/// all, one after another, after one round that isn't counted.
pub fn rounds<T: Copy, const N: usize>(things: [T; N], mut work: impl FnMut(T)) -> Vec<[f64; N]> {
    let mut round = || {
        things.map(|thing| {
            let start = Instant::now();
            work(thing);
            start.elapsed().as_nanos() as f64
        })
    };
    round();
    let start = Instant::now();
    let mut times = vec![];
    while times.len() < ROUNDS && (times.len() < FEWEST || start.elapsed() <= LONG) {
        times.push(round());
    }
    times
}

/// Which of several figures stand for their range.
#[derive(Clone, Copy)]
pub enum Range {
    /// The lower and the upper quartile.
    Quartiles,
    /// The least and the greatest.
    Whole,
}

/// The median of several figures, and their range.
pub struct Spread {
    /// The lower end of the range.
    pub low: f64,
    /// The median.
    pub median: f64,
    /// The upper end of the range.
    pub high: f64,
}

impl Spread {
    /// That of these figures, of which there is at least one.
    pub fn of(figures: impl Iterator<Item = f64>, range: Range) -> Spread {
        let mut sorted: Vec<f64> = figures.collect();
        sorted.sort_by(f64::total_cmp);
        let margin = match range {
            Range::Quartiles => 0.25,
            Range::Whole => 0.0,
        };
        Spread {
            low: quantile(&sorted, margin),
            median: quantile(&sorted, 0.5),
            high: quantile(&sorted, 1.0 - margin),
        }
    }
}

/// The figure below which this part of the sorted ones lies; between two of
/// them, as much nearer to one as the part is.
fn quantile(sorted: &[f64], part: f64) -> f64 {
    let at = part * (sorted.len() - 1) as f64;
    let (low, high) = (sorted[at.floor() as usize], sorted[at.ceil() as usize]);
    low + (high - low) * at.fract()
}

#[cfg(test)]
mod tests {
    use super::*;

    fn spread(figures: &[f64], range: Range) -> [f64; 3] {
        let Spread { low, median, high } = Spread::of(figures.iter().copied(), range);
        [low, median, high]
    }

    #[test]
    fn medians_and_ranges() {
        let five = [5.0, 1.0, 4.0, 2.0, 9.0];
        assert_eq!(spread(&five, Range::Whole), [1.0, 4.0, 9.0]);
        assert_eq!(spread(&five, Range::Quartiles), [2.0, 4.0, 5.0]);
        assert_eq!(spread(&[3.0, 1.0], Range::Whole), [1.0, 2.0, 3.0]);
        assert_eq!(spread(&[3.0, 1.0], Range::Quartiles), [1.5, 2.0, 2.5]);
        assert_eq!(spread(&[7.0], Range::Quartiles), [7.0; 3]);
    }

    #[test]
    fn every_round_does_every_thing() {
        let mut done = [0; 3];
        let times = rounds([0, 1, 2], |thing: usize| done[thing] += 1);
        assert_eq!(times.len(), ROUNDS);
        assert_eq!(done, [ROUNDS + 1; 3]);
    }
}
