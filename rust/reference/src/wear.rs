//! Wear figures for a whole tour, as request Q-5 has them.
//!
//! A report is ten numbers: stores seen, lines seen, lines for each mark 0 to 4,
//! stores for each answer 0, 11 and 12. All are counted from the list of the
//! stores taken in, and adding a result adds the report of that one alone. Sums
//! and products of what is handed in have 128 bits, in which none can wrap.

use std::cmp::Ordering;
use std::ops::Range;

use crate::{answer, mark, order};

/// Numbers in a report.
pub const NUMBERS: usize = 10;

/// The most stores in a report.
pub const MOST_STORES: u64 = 1_000_000;

/// The least number of lines of one store.
pub const LEAST_LINES: u64 = 4;

/// The most lines of one store.
pub const MOST_LINES: u64 = 4_194_304;

/// Where a report has its stores, its lines, the lines for each mark and the
/// stores for each answer.
const STORES: usize = 0;
const LINES: usize = 1;
const OF_MARKS: Range<usize> = 2..7;
const OF_ANSWERS: Range<usize> = 7..10;

/// The answers that are counted, in the order of a report.
const COUNTED: [u32; 3] = [answer::DONE, answer::LEFT, answer::DIFFERS];

/// The report of a list of stores, each its marks and its answer: those left out
/// that an addition in their turn refuses.
pub fn wear_of<M: AsRef<[u8]>>(stores: &[(M, u32)]) -> [u64; NUMBERS] {
    let stores = stores
        .iter()
        .map(|(marks, answer)| (marks.as_ref(), *answer));
    let taken = stores.filter(fits).take(MOST_STORES as usize);
    let lines = taken.clone().flat_map(|(marks, _)| marks);

    let mut report = [0; NUMBERS];
    report[STORES] = taken.clone().count() as u64;
    report[LINES] = lines.clone().count() as u64;
    for (mark, count) in (0..).zip(&mut report[OF_MARKS]) {
        *count = lines.clone().filter(|of| **of == mark).count() as u64;
    }
    for (answer, count) in COUNTED.iter().zip(&mut report[OF_ANSWERS]) {
        *count = taken.clone().filter(|(_, of)| of == answer).count() as u64;
    }
    report
}

/// Adds a repair result, its marks and its answer, to a report; gives the answer.
///
/// Refusals: 7 (the report), 15. The report is then as it was.
pub fn add(wear: &mut [u64], marks: &[u8], answer: u32) -> u32 {
    let Some(report) = whole(wear) else {
        return answer::BUFFER;
    };
    let full = report[STORES] >= MOST_STORES;
    if !adds_up(report) || full || !fits(&(marks, answer)) {
        return answer::WEAR;
    }
    for (number, more) in wear.iter_mut().zip(wear_of(&[(marks, answer)])) {
        // Small: no report that adds up has a number above 4,194,304,000,000.
        *number += more;
    }
    answer::DONE
}

/// Compares the shares of rebuilt lines in two reports; gives the answer and the
/// order, which is 0 where the answer turns back.
///
/// Refusals: 7 (either report), 15 (either report).
pub fn compare(a: &[u64], b: &[u64]) -> (u32, u32) {
    let (Some(a), Some(b)) = (whole(a), whole(b)) else {
        return (answer::BUFFER, 0);
    };
    if !adds_up(a) || !adds_up(b) {
        return (answer::WEAR, 0);
    }
    let ((above, below), (other_above, other_below)) = (share(a), share(b));
    let order = match (above * other_below).cmp(&(other_above * below)) {
        Ordering::Equal => order::EQUAL,
        Ordering::Less => order::SMALLER,
        Ordering::Greater => order::GREATER,
    };
    (answer::DONE, order)
}

/// These numbers as a report, if they are ten.
fn whole(numbers: &[u64]) -> Option<&[u64; NUMBERS]> {
    numbers.try_into().ok()
}

/// Whether a report's marks and answers add up to its lines and stores, and
/// these keep their limits.
fn adds_up(report: &[u64; NUMBERS]) -> bool {
    let [stores, lines] = [STORES, LINES].map(|i| u128::from(report[i]));
    let sum = |part: Range<usize>| report[part].iter().copied().map(u128::from).sum::<u128>();
    sum(OF_MARKS) == lines
        && sum(OF_ANSWERS) == stores
        && stores <= u128::from(MOST_STORES)
        && lines <= stores * u128::from(MOST_LINES)
}

/// Whether a result may be added: as many marks as a store can have lines, all
/// of them marks, and an answer that is counted.
fn fits((marks, answer): &(&[u8], u32)) -> bool {
    (LEAST_LINES..=MOST_LINES).contains(&(marks.len() as u64))
        && marks.iter().all(|&mark| mark <= mark::FAULTY)
        && COUNTED.contains(answer)
}

/// The share of rebuilt lines as a fraction, above and below its stroke; of no
/// lines it is 0/1.
fn share(report: &[u64; NUMBERS]) -> (u128, u128) {
    let rebuilt = OF_MARKS.start + usize::from(mark::REBUILT);
    match report[LINES] {
        0 => (0, 1),
        lines => (u128::from(report[rebuilt]), u128::from(lines)),
    }
}
