//! Forecasts, told which lines of a store are faulty: beside the library's repair
//! of that store, and beside the peer's forecast. And how the time grows for each
//! unit of work, which is a line to be looked at or a visit of a group.

use std::array;
use std::hint::black_box;

use crate::doers::Doer;
use crate::stores::{Buffers, LINE_BYTES, Store};
use crate::table::{Bar, Figures, Row, figures, grown};
use crate::timing::rounds;
use crate::{SIDE, TURNS};

/// The sides by which growth is measured.
const SIDES: [usize; 3] = [128, 256, SIDE];

/// The most that the time for a unit may grow by.
const GROWTH: f64 = 1.5;

/// Each forecast of a large store: what is faulty, the passes, and its bars. Of
/// lines that are drawn only a run tells the passes.
const FORECASTS: [(&str, Option<u64>, &[Bar]); 3] = [
    ("nothing faulty", Some(0), &[Bar::Repair(0.05)]),
    ("hurt past repair", None, &[]),
    ("chained", Some(chain_passes(SIDE)), &[Bar::Repair(0.2)]),
];

/// The rows of the table, in the order in which `run` gives their rounds.
pub fn rows() -> Vec<Row> {
    let large = FORECASTS.map(|(state, passes, bars)| {
        let passes = passes.map_or_else(String::new, |passes| format!(", passes {passes}"));
        let name = format!("{state}, {SIDE} by {SIDE}{passes}");
        Row::new(&name, Some("µs"), bars)
    });
    let growing = ["nothing faulty", "chained"].into_iter().flat_map(|state| {
        let sizes = SIDES.map(|side| format!("{state}, {side} by {side}, each line or visit"));
        let sizes = sizes.map(|name| Row::new(&name, Some("ps"), &[]));
        let growth = "growth of these, largest / smallest";
        let growth = Row::new(growth, None, &[Bar::Itself(GROWTH)]);
        sizes.into_iter().chain([growth])
    });
    large.into_iter().chain(growing).collect()
}

/// For each row its figures in every round.
pub fn run(clean: &Store, past_repair: &Store, chained: &Store) -> Vec<Vec<Figures>> {
    let stores = [clean, past_repair, chained].into_iter().zip(FORECASTS);
    let told = stores.map(|(store, (_, passes, _))| Told::new(store, passes));
    let mut given: Vec<Vec<Figures>> = told.map(large).collect();

    let (small, middle) = (Store::new(SIDES[0]), Store::new(SIDES[1]));
    let told = [&small, &middle, clean].map(|store| Told::new(store, Some(0)));
    given.extend(growth(told));
    let (small, middle) = (small.chained(), middle.chained());
    let chain = |store| Told::new(store, Some(chain_passes(store.side)));
    given.extend(growth([&small, &middle, chained].map(chain)));
    given
}

/// The passes for the staircase of a store of this side: each rebuilds lines at
/// both of its ends, two rows together.
const fn chain_passes(side: usize) -> u64 {
    side as u64 / 2
}

/// What is timed in a round.
#[derive(Clone, Copy)]
enum Work {
    Forecast,
    Repair,
    Peer,
}

impl Work {
    /// All of them, in the order of the table.
    const ALL: [Work; 3] = [Work::Forecast, Work::Repair, Work::Peer];

    /// Turns in a round: a forecast takes a fraction of a millisecond.
    fn turns(self) -> usize {
        match self {
            Work::Forecast | Work::Peer => TURNS,
            Work::Repair => 1,
        }
    }
}

/// A store, what a forecast is told of it, and the buffers that are written.
struct Told<'a> {
    store: &'a Store,
    faulty: Vec<u8>,
    passes: u64,
    out: Buffers,
}

impl Told<'_> {
    /// The lines of this store that are faulty when read alone. Makes sure that
    /// library and peer say the same of them, and so many passes where a number
    /// is expected.
    fn new(store: &Store, expected: Option<u64>) -> Told<'_> {
        let mark = |line| match Doer::Peer.read_line(line, &mut [0; LINE_BYTES]) {
            (10, mark) => mark,
            _ => 0,
        };
        let faulty: Vec<u8> = store.lines.chunks(LINE_BYTES).map(mark).collect();
        let mut out = Buffers::new(store.side);
        let (side, mut marks) = (store.side, vec![0; faulty.len()]);
        let (answer, passes) = sudoku::c::forecast(side, side, &faulty, &mut marks);
        let due = peer::forecast(side, side, &faulty, &mut out.marks);
        let same = (answer, passes) == due && marks == out.marks;
        assert!(same, "library and peer differ: forecast");
        let expected = expected.unwrap_or(passes);
        assert_eq!((answer, passes), (0, expected), "answer and passes");
        Told {
            store,
            faulty,
            passes,
            out,
        }
    }

    /// Does this so many times.
    fn work(&mut self, work: Work, turns: usize) {
        let side = self.store.side;
        for _ in 0..turns {
            let (store, faulty) = (black_box(self.store), black_box(&self.faulty[..]));
            let marks = &mut self.out.marks;
            black_box(match work {
                Work::Forecast => sudoku::c::forecast(side, side, faulty, marks),
                Work::Repair => Doer::Library.repair(store, &mut self.out),
                Work::Peer => peer::forecast(side, side, faulty, marks),
            });
            black_box(&self.out);
        }
    }

    /// The lines, and for each pass a visit of each row and each column.
    fn units(&self) -> usize {
        self.faulty.len() + self.passes as usize * 2 * self.store.side
    }
}

/// Forecasts of a large store: microseconds.
fn large(mut told: Told) -> Vec<Figures> {
    let times = rounds(Work::ALL, |work| told.work(work, work.turns()));
    let each = |times: [f64; 3]| {
        let turns = Work::ALL.map(|work| work.turns() as f64 * 1e3);
        figures(&array::from_fn::<_, 3, _>(|i| times[i] / turns[i]))
    };
    times.into_iter().map(each).collect()
}

/// Forecasts of stores of several sides: picoseconds for a unit of each, and
/// their growth in each round.
fn growth(mut told: [Told; SIDES.len()]) -> Vec<Vec<Figures>> {
    const SIZES: usize = SIDES.len();
    const WORKS: usize = Work::ALL.len();
    // Every size in every round, and in each as many units. The sizes of the same
    // work come one after another: a clock that slows down for a while then slows
    // all of them.
    let most = told[SIZES - 1].units();
    let things: [_; WORKS * SIZES] = array::from_fn(|i| (i % SIZES, Work::ALL[i / SIZES]));
    let times = rounds(things, |(size, work)| {
        let turns = work.turns() * most / told[size].units();
        told[size].work(work, turns);
    });
    let each = |times: [f64; WORKS * SIZES]| -> [[f64; WORKS]; SIZES] {
        let unit = |i: usize| times[i] * 1e3 / (things[i].1.turns() * most) as f64;
        array::from_fn(|size| array::from_fn(|work| unit(work * SIZES + size)))
    };
    grown(times.into_iter().map(each))
}
