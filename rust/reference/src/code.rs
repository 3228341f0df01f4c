//! The single-line code for any width: a polynomial check, Hamming bits over
//! data and check, and reading alone.
//!
//! A line here is a row of places: the data, then the check, then the Hamming
//! bits. Data and check together are the protected word. Of its places the
//! first is the coefficient of the highest power.
//!
//! A row of another length than asked is taken as if zeros followed it, or as
//! if the rest were not there.

use std::sync::LazyLock;

use crate::hamming::{Hamming, Named};
use crate::{DATA_PLACES, mark, polynomial};

/// A line code.
#[derive(Clone, Debug)]
pub struct LineCode {
    data: usize,
    generator: Vec<bool>,
    hamming: Hamming,
}

static STORE: LazyLock<LineCode> =
    LazyLock::new(|| LineCode::new(DATA_PLACES, &polynomial::generator()));

impl LineCode {
    /// The code with this many data places and this generator.
    pub fn new(data: usize, generator: &[bool]) -> LineCode {
        let first = generator.iter().position(|&bit| bit);
        // A generator of zero checks nothing; the polynomial 1 says the same.
        let generator = first.map_or(vec![true], |first| generator[first..].to_vec());
        let protected = data + generator.len() - 1;
        LineCode {
            data,
            generator,
            hamming: Hamming::new(protected),
        }
    }

    /// The store's code: 512 data places, 31 of CRC and 10 Hamming bits.
    pub fn store() -> &'static LineCode {
        &STORE
    }

    /// How many data places there are.
    pub fn data(&self) -> usize {
        self.data
    }

    /// How many protected places there are.
    pub fn protected(&self) -> usize {
        self.data + self.generator.len() - 1
    }

    /// How many places there are in all.
    pub fn places(&self) -> usize {
        self.protected() + self.hamming.checks()
    }

    /// The Hamming code over the protected places.
    pub fn hamming(&self) -> &Hamming {
        &self.hamming
    }

    /// The line written for these data.
    ///
    /// The check is the remainder of the data moved up by the generator's
    /// degree, which makes the protected word divisible.
    pub fn write(&self, data: &[bool]) -> Vec<bool> {
        let mut line = fit(data, self.data);
        let moved_up = fit(&line, self.protected());
        line.extend(polynomial::remainder(&moved_up, &self.generator));
        line.extend(self.hamming.bits(&line));
        line
    }

    /// Whether the protected word of a line is divisible by the generator.
    pub fn divisible(&self, line: &[bool]) -> bool {
        let word = fit(line, self.protected());
        let rest = polynomial::remainder(&word, &self.generator);
        rest.iter().all(|&bit| !bit)
    }

    /// The syndrome of a line.
    pub fn syndrome(&self, line: &[bool]) -> usize {
        let line = fit(line, self.places());
        let (protected, hamming) = line.split_at(self.protected());
        self.hamming.syndrome(protected, hamming)
    }

    /// Reading alone: the line as accepted, with mark 1 if any place of it was
    /// rewritten and 0 if none was; or the line as found with mark 4.
    pub fn read_alone(&self, line: &[bool]) -> (Vec<bool>, u8) {
        let found = fit(line, self.places());
        let Some(read) = self.accepted(&found) else {
            return (found, mark::FAULTY);
        };
        let rewritten = (0..self.places()).any(|place| read[place] != found[place]);
        let mark = if rewritten {
            mark::REWRITTEN
        } else {
            mark::CLEAN
        };
        (read, mark)
    }

    /// The line as it is accepted, Hamming bits afresh; none if it is faulty.
    fn accepted(&self, found: &[bool]) -> Option<Vec<bool>> {
        if self.divisible(found) {
            return Some(self.hamming_afresh(found.to_vec()));
        }
        let Named::Protected(place) = self.hamming.named(self.syndrome(found)) else {
            return None;
        };
        let mut flipped = found.to_vec();
        flipped[place] ^= true;
        if !self.divisible(&flipped) {
            return None;
        }
        Some(self.hamming_afresh(flipped))
    }

    /// Whether a line's places are what writing its data gives.
    pub fn correct(&self, line: &[bool]) -> bool {
        let line = fit(line, self.places());
        self.write(&line[..self.data]) == line
    }

    fn hamming_afresh(&self, mut line: Vec<bool>) -> Vec<bool> {
        line.truncate(self.protected());
        line.extend(self.hamming.bits(&line));
        line
    }
}

/// The row with this length: cut off, or zeros put after it.
fn fit(row: &[bool], length: usize) -> Vec<bool> {
    let mut fitted = row[..row.len().min(length)].to_vec();
    fitted.resize(length, false);
    fitted
}
