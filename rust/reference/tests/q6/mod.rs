//! What request Q-6 says of a forecast: from one byte for each line, 0 whole and
//! anything else faulty, it gives the marks and passes of a repair in which no
//! trial takes and every parity line is usable. Whatever trials take, a repair with
//! these faulty lines and usable parity lines leaves no line that the forecast
//! doesn't leave. Refusals are 2 and 7.
//!
//! Everything here takes what an implementation gives, so that the tests of
//! the library use it too: a forecast as a function of a call to the answer, the
//! passes and the marks after; a repair as one of a call to its outcome.

pub mod cases;
pub mod law;
pub mod repairs;

use reference::draw::forecast::{Call, Given};

pub use cases::Case;
pub use repairs::Hurt;

/// What stands in a buffer for marks before: any of these may.
const FILLINGS: [u8; 3] = [0, 4, 0xA5];

/// Bytes of faulty lines, one after another.
const BYTES: [&[u8]; 6] = [&[1], &[255], &[4], &[2], &[128], &[3, 1, 200, 4, 2, 64]];

/// These patterns have the marks and passes that they should, whatever the bytes
/// of faulty lines are and whatever the buffer for the marks held.
pub fn expect_cases(cases: &[Case], forecast: impl Fn(&Call) -> Given) {
    for case in cases {
        let due = case.due();
        for (filling, bytes) in FILLINGS.iter().flat_map(|f| BYTES.map(|bytes| (*f, bytes))) {
            let given = forecast(&case.call(bytes, filling));
            expect(&given, &due, &format!("{}, bytes {bytes:?}", case.says));
        }
    }
}

/// The same of patterns that take long, each once.
pub fn expect_long_cases(cases: &[Case], forecast: impl Fn(&Call) -> Given) {
    for (case, bytes) in cases.iter().zip(BYTES.iter().cycle()) {
        expect(&forecast(&case.call(bytes, 0x3C)), &case.due(), &case.says);
    }
}

/// These calls are refused so: nothing is written, and the passes are 0.
pub fn expect_refused(cases: &[(Call, u32)], forecast: impl Fn(&Call) -> Given) {
    for (call, answer) in cases {
        let lengths = (call.faulty.len(), call.marks.len());
        let what = format!("sides {:?}, lengths {lengths:?}", (call.rows, call.columns));
        expect(&forecast(call), &refusal(call, *answer), &what);
    }
}

/// A refusal of this call.
fn refusal(call: &Call, answer: u32) -> Given {
    Given {
        answer,
        passes: 0,
        marks: call.marks.clone(),
    }
}

/// A forecast gave this, to every mark.
#[track_caller]
fn expect(given: &Given, due: &Given, what: &str) {
    let numbers = |of: &Given| (of.answer, of.passes);
    assert_eq!(numbers(given), numbers(due), "{what}: answer, passes");
    assert_eq!(given.marks.len(), due.marks.len(), "{what}");
    let differs = (0..due.marks.len()).find(|&n| given.marks[n] != due.marks[n]);
    assert_eq!(differs, None, "{what}: a mark that differs");
}

/// Sides of the rectangles whose patterns are all examined: at most twelve lines.
pub fn small_sides() -> impl Iterator<Item = (usize, usize)> {
    let sides = (2..=4).flat_map(|rows| (2..=4).map(move |columns| (rows, columns)));
    sides.filter(|(rows, columns)| rows * columns <= 12)
}

/// How many patterns a rectangle of these sides has.
pub fn pattern_count((rows, columns): (usize, usize)) -> usize {
    1 << (rows * columns)
}

/// The pattern in which line n is faulty if bit n is set, with many different
/// bytes.
pub fn pattern((rows, columns): (usize, usize), bits: usize) -> Call {
    let lines = rows * columns;
    let byte = |n| {
        let byte = 1 + (bits + 37 * n) % 255;
        byte as u8 * u8::from(bits >> n & 1 == 1)
    };
    Call {
        rows,
        columns,
        faulty: (0..lines).map(byte).collect(),
        marks: vec![0x99; lines],
    }
}

/// Every pattern of these sides is forecast as the laws say. Gives how many there
/// are.
pub fn expect_every_pattern(sides: (usize, usize), forecast: impl Fn(&Call) -> Given) -> usize {
    let largest = law::largest_parts(sides);
    let left_of = |bits| {
        let call = pattern(sides, bits);
        let given = forecast(&call);
        let what = format!("sides {sides:?}, lines {bits:#b}");
        expect(&given, &law::due(&call), &what);
        given.expect_words(&call, &what);
        assert_eq!(bits_of(&given.marks, 4), largest[bits], "{what}: left");
        bits_of(&given.marks, 4)
    };
    let left: Vec<usize> = (0..largest.len()).map(left_of).collect();
    expect_more_of_more(&left);
    left.len()
}

/// Of each pattern those lines are left that are left of one with a faulty line
/// fewer, and perhaps others; told what is left of each.
fn expect_more_of_more(left: &[usize]) {
    let lines = left.len().ilog2() as usize;
    for (bits, n) in (0..left.len()).flat_map(|bits| (0..lines).map(move |n| (bits, n))) {
        let lost = left[bits] & !left[bits | 1 << n];
        assert_eq!(lost, 0, "lines {bits:#b}, and line {n}");
    }
}

/// The lines with this mark, as bits.
fn bits_of(marks: &[u8], mark: u8) -> usize {
    let with = (0..marks.len()).filter(|&n| marks[n] == mark);
    with.map(|n| 1 << n).sum()
}

/// What drawn forecasts came to.
#[derive(Debug, Default)]
pub struct Seen {
    /// Refused with 2 and with 7.
    refused: [usize; 2],
    /// By what becomes of the faulty lines.
    none_faulty: usize,
    all_rebuilt: usize,
    some_left: usize,
    all_left: usize,
    /// With four passes or more.
    long: usize,
    most_passes: u64,
}

impl Seen {
    /// Holds a drawn forecast against the request's words and the laws.
    pub fn check(&mut self, call: &Call, given: &Given) {
        let fits = |side| (2..=512).contains(&side);
        let lengths = [call.faulty.len(), call.marks.len()];
        if !fits(call.rows) || !fits(call.columns) {
            expect(given, &refusal(call, 2), "sides");
            self.refused[0] += 1;
        } else if lengths != [call.rows * call.columns; 2] {
            expect(given, &refusal(call, 7), "lengths");
            self.refused[1] += 1;
        } else {
            let what = format!("sides {:?}", (call.rows, call.columns));
            expect(given, &law::due(call), &what);
            given.expect_words(call, &what);
            self.count(given);
        }
    }

    fn count(&mut self, given: &Given) {
        let has = |mark: u8| given.marks.contains(&mark);
        match (has(3), has(4)) {
            (false, false) => self.none_faulty += 1,
            (true, false) => self.all_rebuilt += 1,
            (true, true) => self.some_left += 1,
            (false, true) => self.all_left += 1,
        }
        self.long += usize::from(given.passes >= 4);
        self.most_passes = self.most_passes.max(given.passes);
    }

    /// All that can come up did so often.
    pub fn expect(&self, least: usize) {
        let counts = [
            self.none_faulty,
            self.all_rebuilt,
            self.some_left,
            self.all_left,
            self.long,
        ];
        let mut all = counts.iter().chain(&self.refused);
        assert!(all.all(|&count| count >= least), "{self:?}");
    }

    /// And some forecast has so many passes.
    pub fn expect_passes(&self, least: u64) {
        assert!(self.most_passes >= least, "{self:?}");
    }
}
