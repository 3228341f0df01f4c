//! Wear reports and repair results for tests of request Q-5: reports of all
//! sizes, ones whose shares are nearly equal, and ones broken in every way.

use crate::answer;
use crate::random::Random;
use crate::wear::{LEAST_LINES, MOST_LINES, MOST_STORES, NUMBERS};

/// The most lines in a report.
const ALL_LINES: u64 = MOST_STORES * MOST_LINES;

/// A product of two of its multiples has 64 low bits of 0.
const HALF: u64 = 1 << 32;

/// A report that keeps the request's limits: of any size, and often at a limit.
pub fn report(random: &mut Random) -> [u64; NUMBERS] {
    if random.once_in(4) {
        return report_of_halves(random);
    }
    let stores = match random.below(8) {
        0 => 0,
        1 => 1,
        2 => MOST_STORES,
        3 => MOST_STORES - 1,
        _ => size(random, MOST_STORES),
    };
    let most = stores * MOST_LINES;
    let lines = match random.below(6) {
        0 => 0,
        1 => most,
        2 => most.saturating_sub(1),
        3 => stores * LEAST_LINES,
        _ => size(random, most),
    };
    let rebuilt = match random.below(6) {
        0 => 0,
        1 => lines,
        2 => lines.saturating_sub(1),
        3 => lines.min(1),
        _ => size(random, lines),
    };
    report_of(random, stores, lines, rebuilt)
}

/// A report whose lines and rebuilt lines are multiples of 2^32.
fn report_of_halves(random: &mut Random) -> [u64; NUMBERS] {
    let lines = random.between(1, (ALL_LINES / HALF) as usize) as u64 * HALF;
    let rebuilt = random.between(0, (lines / HALF) as usize) as u64 * HALF;
    let stores = stores_for(random, lines);
    report_of(random, stores, lines, rebuilt)
}

/// So many stores as can have these lines.
fn stores_for(random: &mut Random, lines: u64) -> u64 {
    let fewest = lines.div_ceil(MOST_LINES);
    let most = (lines / LEAST_LINES).clamp(fewest, MOST_STORES);
    random.between(fewest as usize, most as usize) as u64
}

/// A report of so many stores, lines and rebuilt lines, which are no more than
/// the lines; its other marks and its answers are drawn.
pub fn report_of(random: &mut Random, stores: u64, lines: u64, rebuilt: u64) -> [u64; NUMBERS] {
    let [zero, one, trial, faulty] = parts(random, lines - rebuilt);
    let [done, left, differs] = parts(random, stores);
    [
        stores, lines, zero, one, trial, rebuilt, faulty, done, left, differs,
    ]
}

/// A report whose share of rebuilt lines is that one's or very near to it. Both
/// keep the limits.
pub fn near(random: &mut Random, report: &[u64; NUMBERS]) -> [u64; NUMBERS] {
    let (above, below) = lowest(report[5], report[1]);
    let (mut rebuilt, mut lines) = match random.below(5) {
        1 | 2 if above > 0 => next_below(above, below),
        3 | 4 if above < below => {
            let (rest, lines) = next_below(below - above, below);
            (lines - rest, lines)
        }
        _ => (above, below),
    };
    // Adding the fraction itself, above and below, leads ever nearer to it, and
    // the cross products still differ by 1.
    let most = (ALL_LINES - lines) / below;
    let times = match random.below(3) {
        0 => most,
        1 => size(random, most),
        _ => random.between(0, most as usize) as u64,
    };
    rebuilt += times * above;
    lines += times * below;
    let stores = stores_for(random, lines);
    report_of(random, stores, lines, rebuilt)
}

/// A way in which a report is broken.
#[derive(Clone, Copy, Debug, PartialEq, Eq)]
pub enum Flaw {
    /// It has more or fewer numbers than ten.
    Length,
    /// The marks don't add up to the lines.
    Marks,
    /// The answers don't add up to the stores.
    Answers,
    /// The marks add up to the lines only in 64 bits, in which they wrap.
    WrappedMarks,
    /// So do the answers to the stores.
    WrappedAnswers,
    /// It has more lines than its stores can have.
    Lines,
    /// It has more than 1,000,000 stores.
    Stores,
    /// Its numbers are any.
    Numbers,
}

impl Flaw {
    /// Every way.
    pub const ALL: [Flaw; 8] = [
        Flaw::Length,
        Flaw::Marks,
        Flaw::Answers,
        Flaw::WrappedMarks,
        Flaw::WrappedAnswers,
        Flaw::Lines,
        Flaw::Stores,
        Flaw::Numbers,
    ];

    /// The answer that a report broken in this way gets.
    pub fn answer(self) -> u32 {
        match self {
            Flaw::Length => answer::BUFFER,
            _ => answer::WEAR,
        }
    }
}

/// A report broken in any way.
pub fn broken(random: &mut Random) -> Vec<u64> {
    let flaw = Flaw::ALL[random.below(Flaw::ALL.len())];
    broken_by(random, flaw)
}

/// A report broken in this way and, unless its numbers are any, in no other.
pub fn broken_by(random: &mut Random, flaw: Flaw) -> Vec<u64> {
    let mut report = report(random);
    match flaw {
        Flaw::Length => return of_other_length(random, &report),
        Flaw::Marks => other_number(random, &mut report[2..7]),
        Flaw::Answers => other_number(random, &mut report[7..10]),
        Flaw::WrappedMarks => wrap(random, &mut report[2..7]),
        Flaw::WrappedAnswers => wrap(random, &mut report[7..10]),
        Flaw::Lines => {
            let lines = beyond(random, report[0] * MOST_LINES);
            let rebuilt = size(random, lines);
            report = report_of(random, report[0], lines, rebuilt);
        }
        Flaw::Stores => {
            let stores = beyond(random, MOST_STORES);
            report = report_of(random, stores, report[1], report[5]);
        }
        Flaw::Numbers => {
            report = [(); NUMBERS].map(|()| random.number());
            report[0] = report[0].max(MOST_STORES + 1);
        }
    }
    report.to_vec()
}

/// What may be handed in as a report: mostly one, often a broken one.
pub fn numbers(random: &mut Random) -> Vec<u64> {
    if random.once_in(3) {
        broken(random)
    } else {
        report(random).to_vec()
    }
}

/// A repair result that may be added: four to `most` marks, and the answer.
pub fn taken(random: &mut Random, most: usize) -> (Vec<u8>, u32) {
    let least = LEAST_LINES as usize;
    let top = random.between(least, most);
    let mut marks = vec![0; random.between(least, top)];
    match random.below(4) {
        0 => marks.fill(random.below(5) as u8),
        1 => {
            let rare = random.between(2, 50);
            for mark in &mut marks {
                *mark = random.below(5 * rare) as u8;
                *mark *= u8::from(*mark < 5);
            }
        }
        _ => marks.fill_with(|| random.below(5) as u8),
    }
    (marks, [0, 11, 12][random.below(3)])
}

/// A repair result that an addition refuses: of too few marks or too many, with
/// a byte that is no mark, or with another answer.
pub fn refused(random: &mut Random) -> (Vec<u8>, u32) {
    let (mut marks, mut answer) = taken(random, 600);
    match random.below(16) {
        // These are long, so they are rare.
        0 => marks.resize(MOST_LINES as usize + 1, 0),
        1..4 => marks.truncate(random.below(LEAST_LINES as usize)),
        4..10 => {
            let at = random.below(marks.len());
            marks[at] = random.between(5, 255) as u8;
        }
        _ => {
            let others = [1, 2, 9, 10, 13, 14, 15, 16, 255, 256, 1 << 31, u32::MAX];
            answer = others[random.below(others.len())];
        }
    }
    (marks, answer)
}

/// A repair result: mostly one of at most 600 marks that may be added.
pub fn result(random: &mut Random) -> (Vec<u8>, u32) {
    if random.once_in(4) {
        refused(random)
    } else {
        taken(random, 600)
    }
}

/// A number from 0 to `most`, of any magnitude.
fn size(random: &mut Random, most: u64) -> u64 {
    let zeros = random.between(most.leading_zeros() as usize, 64);
    let top = u64::MAX.checked_shr(zeros as u32).unwrap_or(0);
    random.between(0, top.min(most) as usize) as u64
}

/// A number above `most`: often the next one, or the greatest there is.
fn beyond(random: &mut Random, most: u64) -> u64 {
    match random.below(4) {
        0 | 1 => most + 1,
        2 => u64::MAX,
        _ => most + 1 + size(random, u64::MAX - most - 1),
    }
}

/// So many as a sum of N numbers, of which any may be 0.
fn parts<const N: usize>(random: &mut Random, whole: u64) -> [u64; N] {
    let mut parts = [0; N];
    let mut left = whole;
    for part in &mut parts[1..] {
        *part = match random.below(4) {
            0 => 0,
            1 => size(random, left),
            _ => random.between(0, left as usize) as u64,
        };
        left -= *part;
    }
    parts[0] = left;
    random.shuffle(&mut parts);
    parts
}

/// The report with numbers left out at its end or set behind it.
fn of_other_length(random: &mut Random, report: &[u64; NUMBERS]) -> Vec<u64> {
    let mut numbers = report.to_vec();
    let length = match random.below(4) {
        0 => NUMBERS - 1,
        1 => NUMBERS + 1,
        2 => random.below(NUMBERS),
        _ => random.between(NUMBERS + 1, 3 * NUMBERS),
    };
    numbers.resize_with(length, || random.below(3) as u64);
    numbers
}

/// Puts another number in place of one of these: often one more or one less.
fn other_number(random: &mut Random, numbers: &mut [u64]) {
    let number = &mut numbers[random.below(numbers.len())];
    *number = match random.below(4) {
        0 => number.wrapping_add(1),
        1 => number.wrapping_sub(1),
        _ => number.wrapping_add(random.number().max(1)),
    };
}

/// Changes two of these numbers, which are small, so that they add up to 2^64
/// more: 64 bits don't show it.
fn wrap(random: &mut Random, numbers: &mut [u64]) {
    random.shuffle(numbers);
    let [one, other, ..] = numbers else {
        return;
    };
    // Goes onto the one; onto the other goes what it lacks of 2^64.
    let (least, most) = (*other + 1, u64::MAX - *one);
    let more = match random.below(3) {
        0 => least,
        1 => most,
        _ => random.between(least as usize, most as usize) as u64,
    };
    *one += more;
    *other = other.wrapping_sub(more);
}

/// The fraction in its lowest terms; 0/1 of no lines.
fn lowest(rebuilt: u64, lines: u64) -> (u64, u64) {
    let (mut divisor, mut rest) = (lines, rebuilt);
    while rest > 0 {
        (divisor, rest) = (rest, divisor % rest);
    }
    match divisor {
        0 => (0, 1),
        _ => (rebuilt / divisor, lines / divisor),
    }
}

/// A fraction smaller than this one, which is in its lowest terms and not 0: the
/// cross products differ by 1.
fn next_below(above: u64, below: u64) -> (u64, u64) {
    let (above, below) = (i128::from(above), i128::from(below));
    // Euclid's division, down to 1; each rest is so many times `above`, but for
    // multiples of `below`.
    let (mut rest, mut next) = (below, above);
    let (mut times, mut next_times) = (0, 1);
    while next > 0 {
        let whole = rest / next;
        (rest, next) = (next, rest - whole * next);
        (times, next_times) = (next_times, times - whole * next_times);
    }
    let lines = (times - 1).rem_euclid(below) + 1;
    let rebuilt = (above * lines - 1) / below;
    (rebuilt as u64, lines as u64)
}
