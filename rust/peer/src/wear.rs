//! Wear of a tour: the count of a store's marks, and the shares of two reports.

use std::cmp::Ordering;

use crate::answer;

/// Marks that are counted in bytes before they are added up: few enough for a
/// byte, and whole vectors of 16.
const PIECE: usize = 192;

/// How many of these are 0, 1, 2, 3 and 4; others aren't counted.
///
/// One pass with five counters. Bytes as counters make LLVM compare 16 marks at
/// once; the other simple ways, a counter looked up by the mark, counters of 64
/// bits and five filters, take several times as long.
pub fn count(marks: &[u8]) -> [u64; 5] {
    let (pieces, rest) = marks.as_chunks::<PIECE>();
    let mut counts = few(rest).map(u64::from);
    for piece in pieces {
        for (count, more) in counts.iter_mut().zip(few(piece)) {
            *count += u64::from(more);
        }
    }
    counts
}

/// The counts of at most 255 marks. Of a piece the length is known where this is
/// inlined.
#[inline(always)]
fn few(marks: &[u8]) -> [u8; 5] {
    let mut counts = [0; 5];
    for &mark in marks {
        for (of, count) in (0..).zip(&mut counts) {
            *count += u8::from(mark == of);
        }
    }
    counts
}

/// Compares the shares of rebuilt lines in two reports; gives the answer and the
/// order: 0 equal, 1 the first is smaller, 2 it is greater.
///
/// Refusals: 7 (either report), 15 (either report).
pub fn compare(a: &[u64], b: &[u64]) -> (u32, u32) {
    let (Ok(a), Ok(b)) = (<&[u64; 10]>::try_from(a), <&[u64; 10]>::try_from(b)) else {
        return (answer::BUFFER, 0);
    };
    if !adds_up(a) || !adds_up(b) {
        return (answer::WEAR, 0);
    }
    // Where there are no lines none is rebuilt, and 0 of 1 is as good.
    let cross = |of: &[u64; 10], by: &[u64; 10]| u128::from(of[5]) * u128::from(by[1].max(1));
    let order = match cross(a, b).cmp(&cross(b, a)) {
        Ordering::Equal => 0,
        Ordering::Less => 1,
        Ordering::Greater => 2,
    };
    (answer::DONE, order)
}

/// Whether a report's marks and answers add up, and its stores and lines are no
/// more than there may be.
fn adds_up(&[stores, lines, ref rest @ ..]: &[u64; 10]) -> bool {
    let (marks, answers) = rest.split_at(5);
    let sum = |parts: &[u64]| parts.iter().copied().map(u128::from).sum::<u128>();
    stores <= 1_000_000
        && lines <= stores * 4_194_304
        && sum(marks) == lines.into()
        && sum(answers) == stores.into()
}
