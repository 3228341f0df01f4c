//! What request Q-7 says of the single reading: stated in the order of section
//! III-C of document 000 it gives, for any 70 bytes, the line and mark of the
//! reading as it stands.
//!
//! A line goes through here three times: as an implementation reads it, in the
//! paper's order, and by what a correct line is and which place has which position.
//!
//! Everything here takes what an implementation gives, so that the tests of
//! the library use it too.

pub mod lines;

use std::collections::BTreeMap;
use std::sync::LazyLock;

use reference::draw::{Outcome, Store};
use reference::line::{self, Line};
use reference::{DATA_BYTES, HAMMING_PLACES, LINE_BYTES, PROTECTED_PLACES, paper_order};

use lines::Lines;

/// The 70 bytes of a line.
pub type Bytes = [u8; LINE_BYTES];

/// What reading a line alone gives: the line, the mark and the answer.
pub type Reading = (Vec<u8>, u8, u32);

/// How the reading of a line goes.
#[derive(Clone, Copy, Debug, PartialEq, Eq, PartialOrd, Ord)]
pub enum Kind {
    /// Accepted at once, and correct as found: mark 0.
    Clean,
    /// Accepted at once, the Hamming bits rewritten: mark 1.
    HammingHurt,
    /// Accepted after the corrector: mark 1.
    Corrected,
    /// Faulty, though the corrector flipped a protected place.
    ProtectedNamed,
    /// Faulty; the corrector flipped a Hamming place.
    HammingNamed,
    /// Faulty; the syndrome names no place.
    NoneNamed,
}

impl Kind {
    /// Every kind.
    pub const ALL: [Kind; 6] = [
        Kind::Clean,
        Kind::HammingHurt,
        Kind::Corrected,
        Kind::ProtectedNamed,
        Kind::HammingNamed,
        Kind::NoneNamed,
    ];

    /// What such a reading gives: the line accepted is this correct one, a faulty
    /// line is the one found with its spare bits 0.
    pub fn reading(self, found: &Bytes, correct: &Bytes) -> Reading {
        match self {
            Kind::Clean => (correct.to_vec(), 0, 0),
            Kind::HammingHurt | Kind::Corrected => (correct.to_vec(), 1, 0),
            Kind::ProtectedNamed | Kind::HammingNamed | Kind::NoneNamed => {
                let mut line = found.to_vec();
                line[67] &= 0x7F;
                line[69] &= 0x03;
                (line, 4, 10)
            }
        }
    }
}

/// The position of each place: of the protected ones the numbers from 3 up that
/// aren't powers of two, of Hamming bit k the number 2^k.
static POSITIONS: LazyLock<Vec<usize>> = LazyLock::new(|| {
    let numbers = (3usize..).filter(|number| !number.is_power_of_two());
    let of_hamming = (0..HAMMING_PLACES).map(|k| 1 << k);
    numbers.take(PROTECTED_PLACES).chain(of_hamming).collect()
});

/// The positions of all 553 places.
pub fn positions() -> &'static [usize] {
    &POSITIONS
}

/// The syndrome: the exclusive or of the positions of all places set.
pub fn syndrome(line: &Line) -> usize {
    let places = positions().iter().zip(line);
    places.fold(0, |sum, (position, &set)| {
        sum ^ (position * usize::from(set))
    })
}

/// The place that has this syndrome as its position, if any has.
fn named(syndrome: usize) -> Option<usize> {
    positions()
        .iter()
        .position(|&position| position == syndrome)
}

/// How a line reads and what that gives. It is accepted at once if its protected
/// places are those written for its data, and after the corrector if the place named
/// is all that parts it from a correct line.
fn by_correct_lines(found: &Bytes) -> (Kind, Reading) {
    let places = line::places(found);
    let mut data = [0; DATA_BYTES];
    data.copy_from_slice(&found[..DATA_BYTES]);
    let written = line::written(&data);
    if written[..PROTECTED_PLACES] == places[..PROTECTED_PLACES] {
        let kind = if written == places {
            Kind::Clean
        } else {
            Kind::HammingHurt
        };
        return (kind, kind.reading(found, &line::bytes(&written)));
    }
    let named = named(syndrome(&places));
    let mut flipped = places;
    if let Some(place) = named {
        flipped[place] ^= true;
    }
    let kind = match named {
        Some(_) if line::correct(&flipped) => Kind::Corrected,
        Some(place) if place < PROTECTED_PLACES => Kind::ProtectedNamed,
        Some(_) => Kind::HammingNamed,
        None => Kind::NoneNamed,
    };
    (kind, kind.reading(found, &line::bytes(&flipped)))
}

/// How a written line reads with the places of these two positions flipped; powers of
/// two are those of Hamming bits. With both in the Hamming bits it is accepted at once.
/// Otherwise the exclusive or, which is neither 0 nor one of the two, names a third place
/// or none. Of the protected places one to three are then hurt, too few for a word that
/// is divisible: the line is faulty.
fn kind_of_pair(first: usize, second: usize) -> Kind {
    match first ^ second {
        _ if first.is_power_of_two() && second.is_power_of_two() => Kind::HammingHurt,
        named if named > 553 => Kind::NoneNamed,
        named if named.is_power_of_two() => Kind::HammingNamed,
        _ => Kind::ProtectedNamed,
    }
}

/// How often each kind comes up, in the order of [`Kind::ALL`], when every two places of
/// a written line are flipped: their positions are every two numbers from 1 to 553.
pub fn counts_of_pairs() -> [usize; 6] {
    let mut seen = Seen::default();
    for second in 1..=553 {
        (1..second).for_each(|first| seen.count(kind_of_pair(first, second)));
    }
    seen.counts()
}

/// How often readings were of each kind.
#[derive(Debug, Default)]
pub struct Seen(BTreeMap<Kind, usize>);

impl Seen {
    /// One more reading of this kind.
    fn count(&mut self, kind: Kind) {
        *self.0.entry(kind).or_default() += 1;
    }

    /// What the paper's order gives for a line, which must be what correct lines say.
    fn due(&mut self, found: &Bytes) -> Reading {
        let (kind, reading) = by_correct_lines(found);
        let (line, mark) = paper_order::reading_in_order(found);
        assert_eq!(
            (&line[..], mark),
            (&reading.0[..], reading.1),
            "{kind:?}: {found:?}"
        );
        self.count(kind);
        reading
    }

    /// These lines are read as in the paper's order.
    pub fn check(
        &mut self,
        lines: impl IntoIterator<Item = Bytes>,
        read: impl Fn(&[u8]) -> Reading,
    ) {
        for found in lines {
            assert_eq!(read(&found), self.due(&found), "{found:?}");
        }
    }

    /// A store of these lines, all of whose parity lines are faulty, so that no visit
    /// does anything: repair gives every line as it reads in the paper's order.
    pub fn check_store(
        &mut self,
        ((rows, columns), lines): &Lines,
        repaired: impl Fn(&Store) -> Outcome,
    ) {
        let mut store = Store::zero(*rows, *columns);
        store.lines = lines.concat();
        (0..*rows).for_each(|row| store.hurt_row_parity(row, &[0, 1]));
        (0..*columns).for_each(|column| store.hurt_column_parity(column, &[0, 1]));

        let due: Vec<Reading> = lines.iter().map(|found| self.due(found)).collect();
        let marks: Vec<u8> = due.iter().map(|reading| reading.1).collect();
        let given = repaired(&store);
        assert_eq!(given.marks, marks);
        assert!(given.lines == bytes_of(&due));
        let numbers = if marks.contains(&4) { (11, 1) } else { (0, 0) };
        assert_eq!((given.answer, given.passes), numbers);
    }

    /// A 2 by 2 store of zero lines, all hurt at places 0 and 1, with these parity
    /// lines, those of the rows first. Two such lines add up to zero, and a correct
    /// parity line is zero or has more than six places set: no trial is made, no line
    /// is mended, and repair gives every parity line as it reads in the paper's order.
    pub fn check_parity(&mut self, parity: &[Bytes; 4], repaired: impl Fn(&Store) -> Outcome) {
        let mut store = Store::zero(2, 2);
        (0..4).for_each(|n| store.hurt(n, &[0, 1]));
        store.row_table = parity[..2].concat();
        store.column_table = parity[2..].concat();

        let given = repaired(&store);
        assert_eq!((given.answer, given.passes), (11, 1));
        assert_eq!(given.marks, [4; 4]);
        assert!(given.lines == store.lines);
        let due: Vec<Reading> = parity.iter().map(|found| self.due(found)).collect();
        assert!(given.row_table == bytes_of(&due[..2]));
        assert!(given.column_table == bytes_of(&due[2..]));
    }

    /// How often each kind came up, in the order of [`Kind::ALL`].
    pub fn counts(&self) -> [usize; 6] {
        Kind::ALL.map(|kind| self.0.get(&kind).copied().unwrap_or(0))
    }

    /// Every kind came up so often at least.
    pub fn expect(&self, least: usize) {
        assert!(
            self.counts().iter().all(|&count| count >= least),
            "{self:?}"
        );
    }
}

/// The lines of these readings, one after another.
fn bytes_of(readings: &[Reading]) -> Vec<u8> {
    readings
        .iter()
        .flat_map(|reading| reading.0.clone())
        .collect()
}
