//! The single reading a second time, as request Q-7 has it: in the order of
//! section III-C of document 000, to be read beside that text.
//!
//! [`line::read_alone`] tests all 543 protected places for divisibility. Here the
//! CRC is worked out afresh from the data and compared with the stored one, the
//! one that the line holds. The paper's ECC-1 is the Hamming code.

use crate::code::LineCode;
use crate::hamming::Named;
use crate::line::{self, Line};
use crate::{DATA_PLACES, LINE_BYTES, PROTECTED_PLACES, mark, polynomial};

/// A line as it reads alone, and its mark.
pub fn read_in_order(found: &Line) -> (Line, u8) {
    // "When a line is accessed, the CRC associated with the line will detect
    // possible errors."
    if crc_matches(found) {
        return deemed_non_faulty(found, found);
    }
    // "once we find a CRC error, we first try the ECC-1-based repair for the line"
    let flipped = corrector(found);
    // "If the ECC-1 performed a correction, we recompute the CRC using the corrected
    // data value. If the CRC matches with the stored CRC, we deem the line to be
    // corrected successfully." Where nothing was flipped, it matches no more than before.
    if crc_matches(&flipped) {
        return deemed_non_faulty(found, &flipped);
    }
    // "even after correction using ECC-1, the CRC will continue to deem the line to
    // be faulty": it is kept as found.
    (*found, mark::FAULTY)
}

/// The same on 70 bytes: the line with its spare bits 0, and the mark.
pub fn reading_in_order(found: &[u8; LINE_BYTES]) -> ([u8; LINE_BYTES], u8) {
    let (line, mark) = read_in_order(&line::places(found));
    (line::bytes(&line), mark)
}

/// "the CRC matches with the stored CRC"
fn crc_matches(line: &Line) -> bool {
    crc_over_data(line) == line[DATA_PLACES..PROTECTED_PLACES]
}

/// "we compute the CRC over the data" (III-E): what is left of the 512 data places,
/// moved up by the CRC's 31, after division by the generator.
fn crc_over_data(line: &Line) -> Vec<bool> {
    let mut moved_up = line[..DATA_PLACES].to_vec();
    moved_up.resize(PROTECTED_PLACES, false);
    polynomial::remainder(&moved_up, &polynomial::generator())
}

/// "the ECC-1-based repair for the line": the one place that the syndrome names is
/// flipped, in the data, the CRC or the Hamming bits; nothing where it names none.
fn corrector(found: &Line) -> Line {
    let code = LineCode::store();
    let mut flipped = *found;
    match code.hamming().named(code.syndrome(found)) {
        Named::Protected(place) => flipped[place] ^= true,
        Named::Hamming(k) => flipped[PROTECTED_PLACES + k] ^= true,
        Named::None => {}
    }
    flipped
}

/// A line whose CRC matches: data and CRC as they are, and "then compute the ECC over
/// CRC and data" (III-E). The mark, by request Q-1, tells whether that is the line found.
fn deemed_non_faulty(found: &Line, right: &Line) -> (Line, u8) {
    let mut read = *right;
    let (protected, hamming) = read.split_at_mut(PROTECTED_PLACES);
    hamming.copy_from_slice(&LineCode::store().hamming().bits(protected));
    let mark = if read == *found {
        mark::CLEAN
    } else {
        mark::REWRITTEN
    };
    (read, mark)
}
