//! Patterns of faulty lines for tests of request Q-6: few lines and many, chains
//! that open from their ends, and rings that never do.

use super::{any_group, chain, chain_to_ring, near, near_length, ring, sides};
use crate::forecast;
use crate::random::Random;

/// What may be handed to a forecast, right or wrong.
#[derive(Clone, Debug, PartialEq, Eq)]
pub struct Call {
    /// The rows said.
    pub rows: usize,
    /// The columns said.
    pub columns: usize,
    /// The pattern: for each line 0 if it is whole, anything else if faulty.
    pub faulty: Vec<u8>,
    /// The buffer for the marks, as it is before.
    pub marks: Vec<u8>,
}

/// All that a forecast gives.
#[derive(Clone, Debug, PartialEq, Eq)]
pub struct Given {
    /// The answer.
    pub answer: u32,
    /// The passes.
    pub passes: u64,
    /// The buffer for the marks, as it is after.
    pub marks: Vec<u8>,
}

impl Call {
    /// What the forecast gives for this call.
    pub fn forecast(&self) -> Given {
        let mut marks = self.marks.clone();
        let given = forecast(self.rows, self.columns, &self.faulty, &mut marks);
        Given {
            answer: given.answer,
            passes: given.passes,
            marks,
        }
    }
}

impl Given {
    /// Holds this against what the papers say in so many words of every call that
    /// isn't refused: 0 for whole, 3 or 4 for faulty lines; passes are 0 when
    /// nothing is faulty, and never more than the faulty lines.
    ///
    /// # Panics
    ///
    /// Panics where it can't be what such a call gives.
    #[track_caller]
    pub fn expect_words(&self, call: &Call, what: &str) {
        assert_eq!(self.marks.len(), call.faulty.len(), "{what}: marks");
        for (n, (byte, mark)) in call.faulty.iter().zip(&self.marks).enumerate() {
            let fits = match byte {
                0 => *mark == 0,
                _ => [3, 4].contains(mark),
            };
            assert!(fits, "{what}: line {n} has byte {byte} and mark {mark}");
        }
        let faulty = call.faulty.iter().filter(|&&byte| byte != 0).count() as u64;
        let possible = faulty.min(1)..=faulty;
        let passes = self.passes;
        assert!(
            possible.contains(&passes),
            "{what}: {passes} passes for {faulty} faulty lines"
        );
    }
}

/// A way of choosing the lines that are faulty.
#[derive(Clone, Copy, Debug, PartialEq, Eq)]
pub enum Way {
    /// No line.
    Nothing,
    /// One to five lines, mostly in each other's rows and columns.
    Few,
    /// At most as many as there are rows and columns: about where rings begin to
    /// close.
    AsGroups,
    /// One in two to eight.
    Scattered,
    /// All but one in two to eight.
    Most,
    /// Every line.
    All,
    /// Whole rows and columns, one to three of them.
    WholeGroups,
    /// An open chain: each pass rebuilds only its ends.
    OpenChain,
    /// A chain that runs into a ring.
    ChainToRing,
    /// A ring.
    Ring,
    /// What two of the above choose.
    Both,
}

impl Way {
    /// Every way.
    pub const ALL: [Way; 11] = [
        Way::Nothing,
        Way::Few,
        Way::AsGroups,
        Way::Scattered,
        Way::Most,
        Way::All,
        Way::WholeGroups,
        Way::OpenChain,
        Way::ChainToRing,
        Way::Ring,
        Way::Both,
    ];

    /// Draws a way.
    pub fn any(random: &mut Random) -> Way {
        Way::ALL[random.below(Way::ALL.len())]
    }

    /// The lines of a rectangle of these sides that are faulty; some may be named
    /// twice.
    fn lines(self, random: &mut Random, sides: (usize, usize)) -> Vec<usize> {
        let (rows, columns) = sides;
        let all = 0..rows * columns;
        match self {
            Way::Nothing => vec![],
            Way::Few => few(random, sides),
            Way::AsGroups => {
                let count = random.between(1, rows + columns);
                let line = |_| random.below(all.end);
                (0..count).map(line).collect()
            }
            Way::Scattered => {
                let times = random.between(2, 8);
                all.filter(|_| random.once_in(times)).collect()
            }
            Way::Most => {
                let times = random.between(2, 8);
                all.filter(|_| !random.once_in(times)).collect()
            }
            Way::All => all.collect(),
            Way::WholeGroups => {
                let count = random.between(1, 3);
                let group = |_| any_group(random, sides);
                (0..count).flat_map(group).collect()
            }
            Way::OpenChain => {
                let by_rows = random.once_in(2);
                chain(random, sides, by_rows)
            }
            Way::ChainToRing => chain_to_ring(random, sides),
            Way::Ring => ring(random, sides),
            Way::Both => {
                // The last way is this one.
                let two = [(); 2].map(|()| Way::ALL[random.below(Way::ALL.len() - 1)]);
                two.map(|way| way.lines(random, sides)).concat()
            }
        }
    }
}

/// One to five lines, each mostly in the row or the column of one before it.
fn few(random: &mut Random, (rows, columns): (usize, usize)) -> Vec<usize> {
    let mut lines = vec![];
    for _ in 0..random.between(1, 5) {
        let line = near(random, &lines, rows, columns);
        lines.push(line);
    }
    lines
}

/// A pattern of these sides, its lines chosen in this way.
pub fn pattern_by(random: &mut Random, sides: (usize, usize), way: Way) -> Vec<u8> {
    let mut faulty = vec![0; sides.0 * sides.1];
    for n in way.lines(random, sides) {
        faulty[n] = faulty_byte(random);
    }
    faulty
}

/// A pattern of these sides, its lines chosen in any way.
pub fn pattern(random: &mut Random, sides: (usize, usize)) -> Vec<u8> {
    let way = Way::any(random);
    pattern_by(random, sides, way)
}

/// Any byte but 0: often 1, the mark of a faulty line, or one bit alone.
pub fn faulty_byte(random: &mut Random) -> u8 {
    match random.below(4) {
        0 => 1,
        1 => 4,
        2 => 1 << random.below(8),
        _ => random.between(1, 255) as u8,
    }
}

/// A call for this pattern with right lengths; what stands in the buffer for the
/// marks is drawn.
pub fn call_on(random: &mut Random, (rows, columns): (usize, usize), faulty: Vec<u8>) -> Call {
    let mut marks = vec![0; faulty.len()];
    random.fill(&mut marks);
    Call {
        rows,
        columns,
        faulty,
        marks,
    }
}

/// Sides up to `most`: small ones more often, and at times both large, since only
/// then a chain can be long.
fn any_sides(random: &mut Random, most: usize) -> (usize, usize) {
    let least = (most / 2).max(2);
    if random.once_in(4) {
        (random.between(least, most), random.between(least, most))
    } else {
        sides(random, most)
    }
}

/// Draws a call of sides up to `most`. Two of three calls have right sides and
/// lengths; in the others some are wrong.
pub fn call(random: &mut Random, most: usize) -> Call {
    let sides = any_sides(random, most);
    let faulty = pattern(random, sides);
    let mut call = call_on(random, sides, faulty);
    if !random.once_in(3) {
        return call;
    }
    let wrong_sides = [0, 1, 513, 65536, usize::MAX];
    for side in [&mut call.rows, &mut call.columns] {
        if random.once_in(6) {
            *side = random.pick(&wrong_sides).copied().unwrap_or(0);
        } else if random.once_in(6) {
            *side = random.between(2, 512);
        }
    }
    for buffer in [&mut call.faulty, &mut call.marks] {
        if random.once_in(3) {
            let length = near_length(random, buffer.len());
            buffer.resize(length, 0xD7);
        }
    }
    call
}
