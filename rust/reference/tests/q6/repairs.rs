//! Forecasts beside repairs of stores whose faulty lines they are told. Where no
//! trial takes both are equal; where one does, every line that repair leaves is
//! one that the forecast leaves.

use reference::draw::forecast as draw;
use reference::draw::{self as stores, Damage, Outcome, Store, flip};
use reference::random::Random;
use reference::{LINE_BYTES, PROTECTED_PLACES, read_line};

use super::{Call, Given};

/// A way of hurting faulty lines so that no trial takes. A flip and the corrector
/// take away two damaged places; here each line has three or more, and too few
/// for becoming another line.
#[derive(Clone, Copy, Debug)]
pub enum Hurt {
    /// Each at four places that no other line of its row or column has: every
    /// mismatch of two or more lines has at least eight places, and none is
    /// tried.
    Apart,
    /// All at the same three to five places: each mismatch is empty or has these.
    Alike,
    /// Each at three to five places of its own, some of them shared.
    Drawn,
}

impl Hurt {
    /// Every way.
    pub const ALL: [Hurt; 3] = [Hurt::Apart, Hurt::Alike, Hurt::Drawn];
}

/// A drawn store of sides up to 135 with these lines faulty, hurt in this way.
/// Others, and parity lines, have at most one damaged bit, or hurt Hamming bits
/// alone.
pub fn past_trials(random: &mut Random, call: &Call, hurt: Hurt) -> Store {
    let mut store = Store::random(random, call.rows, call.columns);
    let mut order: Vec<usize> = (0..PROTECTED_PLACES).collect();
    random.shuffle(&mut order);
    let alike = random.between(3, 5);
    let side = call.rows.max(call.columns);
    for n in 0..store.count() {
        if call.faulty[n] == 0 {
            scratch(random, store.line_mut(n));
            continue;
        }
        // Along a row and along a column this is another number for each line.
        let apart = (n / call.columns + n % call.columns) % side;
        match hurt {
            Hurt::Apart => store.hurt(n, &order[4 * apart..][..4]),
            Hurt::Alike => store.hurt(n, &order[..alike]),
            Hurt::Drawn => {
                let mut few = order[..12].to_vec();
                random.shuffle(&mut few);
                store.hurt(n, &few[..random.between(3, 5)]);
            }
        }
    }
    scratch_parity(random, &mut store);
    store
}

/// Hurts a line now and then in one place, or in Hamming bits alone.
fn scratch(random: &mut Random, line: &mut [u8]) {
    match random.below(6) {
        0 => flip(line, &[stores::place(random)]),
        1 => flip(line, &stores::hamming_places(random)),
        _ => {}
    }
}

/// Does so with the parity lines.
fn scratch_parity(random: &mut Random, store: &mut Store) {
    for table in [&mut store.row_table, &mut store.column_table] {
        for line in table.chunks_exact_mut(LINE_BYTES) {
            scratch(random, line);
        }
    }
}

/// The forecast of these lines has the marks and passes that repair gives for
/// this store, in which they are faulty and no trial takes. Whether a line was
/// rewritten on reading, mark 1, no forecast knows.
pub fn expect_equal(call: &Call, given: &Given, repaired: &Outcome) {
    let sides = (call.rows, call.columns);
    let what = format!("sides {sides:?}, pattern {:?}", call.faulty);
    let mark = |&mark: &u8| if mark == 1 { 0 } else { mark };
    let due: Vec<u8> = repaired.marks.iter().map(mark).collect();
    assert_eq!(given.marks, due, "{what}: marks");
    let numbers = (given.answer, given.passes);
    assert_eq!(numbers, (0, repaired.passes), "{what}: answer, passes");
}

/// A store in which trials often take: most lines are hurt at two to six places,
/// many of them shared, and parity lines at one at most.
pub fn for_trials(random: &mut Random, sides: (usize, usize)) -> Store {
    let mut store = Store::random(random, sides.0, sides.1);
    let (times, most) = (random.between(1, 4), random.between(2, 6));
    let few = stores::places(random, 8);
    for n in 0..store.count() {
        if random.once_in(times) {
            let count = random.between(2, most);
            let mut places = few.clone();
            random.shuffle(&mut places);
            match random.below(3) {
                0 => places = stores::places(random, count),
                _ => places.truncate(count),
            }
            store.hurt(n, &places);
        } else {
            scratch(random, store.line_mut(n));
        }
    }
    scratch_parity(random, &mut store);
    store
}

/// A store hurt in this way and, whatever that does to them, with usable parity
/// lines: those found faulty are put right, but others may be wrong.
pub fn hurt_store(random: &mut Random, sides: (usize, usize), way: Damage) -> Store {
    let written = Store::random(random, sides.0, sides.1);
    let mut store = written.clone();
    stores::hurt(random, &mut store, way);
    let tables = [
        (&mut store.row_table, &written.row_table),
        (&mut store.column_table, &written.column_table),
    ];
    for (found, written) in tables {
        let lines = found.chunks_exact_mut(LINE_BYTES);
        for (found, written) in lines.zip(written.chunks_exact(LINE_BYTES)) {
            if is_faulty(found) {
                found.copy_from_slice(written);
            }
        }
    }
    store
}

/// Whether a line, read alone, is faulty.
fn is_faulty(line: &[u8]) -> bool {
    read_line(line, &mut [0; LINE_BYTES]).mark == 4
}

/// The call for the forecast of the lines that are faulty after the first reading
/// of a store.
pub fn faulty_alone(random: &mut Random, store: &Store) -> Call {
    let byte = |line| match is_faulty(line) {
        true => draw::faulty_byte(random),
        false => 0,
    };
    let faulty = store.lines.chunks_exact(LINE_BYTES).map(byte).collect();
    draw::call_on(random, store.sides(), faulty)
}

/// What repairs came to beside their forecasts.
#[derive(Debug, Default)]
pub struct Beside {
    /// By whether the forecast leaves lines, and whether repair leaves fewer.
    nothing_left: usize,
    as_many: usize,
    fewer: usize,
    /// Repairs in which a trial took.
    trials: usize,
    /// Repairs with more passes than the forecast says, and with fewer.
    longer: usize,
    shorter: usize,
}

impl Beside {
    /// Every line that repair leaves faulty is one that the forecast names: the
    /// forecast is told the lines that are faulty after the first reading, and
    /// all parity lines are usable.
    pub fn check(&mut self, call: &Call, given: &Given, repaired: &Outcome) {
        assert_eq!(given.answer, 0, "answer");
        let lines = call.faulty.iter().zip(&given.marks).zip(&repaired.marks);
        for (n, ((&faulty, forecast), repaired)) in lines.enumerate() {
            // Marks 0 and 1 are those of lines accepted alone.
            assert_eq!(faulty == 0, *repaired < 2, "line {n}: first reading");
            let left = (*repaired == 4, *forecast == 4);
            assert_ne!(left, (true, false), "line {n}: left, but not named");
        }
        let left = |marks: &[u8]| marks.iter().filter(|&&mark| mark == 4).count();
        match (left(&given.marks), left(&repaired.marks)) {
            (0, _) => self.nothing_left += 1,
            (forecast, repaired) if repaired < forecast => self.fewer += 1,
            _ => self.as_many += 1,
        }
        self.trials += usize::from(repaired.marks.contains(&2));
        self.longer += usize::from(repaired.passes > given.passes);
        self.shorter += usize::from(repaired.passes < given.passes);
    }

    /// All that can come up did so often: the forecast comes true or is bettered,
    /// and trials take.
    pub fn expect(&self, least: usize) {
        let counts = [self.nothing_left, self.as_many, self.fewer, self.trials];
        assert!(counts.iter().all(|&count| count >= least), "{self:?}");
    }

    /// So often repair took more passes than its forecast says, and fewer: nothing
    /// is promised of them where a trial took.
    pub fn expect_other_passes(&self, least: usize) {
        assert!(self.longer.min(self.shorter) >= least, "{self:?}");
    }
}
