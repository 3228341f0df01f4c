//! Wear reports: an addition beside the peer's plain count of the same marks, and
//! beside the library's repair of that store; a comparison beside the peer's with
//! numbers of 128 bits.

use std::hint::black_box;

use crate::SIDE;
use crate::doers::Doer;
use crate::stores::{Buffers, Store};
use crate::table::{Bar, Figures, Row, figures, scaled};
use crate::timing::{BOTH, Timed, rounds};

/// A report: stores, lines, lines for each mark, stores for each answer.
type Report = [u64; 10];

/// The sides of the small stores whose results are added.
const SMALL_SIDES: [usize; 3] = [2, 16, 64];

/// Marks that are added or counted in a round: many, since the first time they
/// may have to come from memory.
const MARKS: usize = 80 * SIDE * SIDE;

/// Additions in a round at most: a report takes a million.
const ADDITIONS: usize = 200_000;

/// Lines that are repaired in a round, if the store doesn't have more.
const REPAIRED: usize = 1 << 14;

/// Comparisons of each pair of reports in a round.
const COMPARISONS: usize = 10_000;

/// Pairs of small reports, and of large ones whose shares are nearly equal: each
/// by its rebuilt and all its lines.
const SMALL: [[(u64, u64); 2]; 4] = [
    [(1, 4), (2, 6)],
    [(3, 256), (1, 4096)],
    [(0, 0), (0, 16)],
    [(700, 262_144), (175, 65_536)],
];
const LARGE: [[(u64, u64); 2]; 4] = [
    [
        (956_722_026_041, 1_548_008_755_920),
        (1_548_008_755_920, 2_504_730_781_961),
    ],
    [
        (4_194_303_999_998, 4_194_303_999_999),
        (4_194_303_999_999, 4_194_304_000_000),
    ],
    [(1 << 40, 1 << 41), (1 << 39, 1 << 40)],
    [(1, 4_194_304_000_000), (1, 4_194_303_999_999)],
];

/// The rows of the table, in the order in which `run` gives their rounds.
pub fn rows() -> Vec<Row> {
    let mut rows = vec![];
    let clean = SMALL_SIDES.into_iter().chain([SIDE]);
    let stores = clean.map(|side| (side, "clean"));
    for (side, state) in stores.chain([(SIDE, "hurt past repair")]) {
        let mut beside = |measure, bars| {
            let name = format!("addition, {side} by {side}, {state}, beside {measure}");
            rows.push(Row::new(&name, Some(unit(side).0), bars));
        };
        beside("a plain count", &[Bar::Measure(1.5)]);
        beside("repair", &[Bar::Measure(0.05)]);
    }
    for size in ["small", "large, nearly equal"] {
        let name = format!("comparison, {size}, beside one in 128 bits");
        rows.push(Row::new(&name, Some("ns"), &[Bar::Measure(10.0)]));
    }
    rows
}

/// The unit for a store of this side, and how many nanoseconds it has.
fn unit(side: usize) -> (&'static str, f64) {
    if side < SIDE {
        ("ns", 1.0)
    } else {
        ("µs", 1e3)
    }
}

/// For each row its figures in every round.
pub fn run(clean: &Store, past_repair: &Store) -> Vec<Vec<Figures>> {
    let small = SMALL_SIDES.map(Store::new);
    let stores = small.iter().chain([clean, past_repair]);
    let mut given: Vec<Vec<Figures>> = stores.flat_map(addition).collect();
    given.extend([SMALL, LARGE].map(|pairs| comparison(&pairs)));
    given
}

/// What is timed in a round of additions.
#[derive(Clone, Copy)]
enum Work {
    Addition,
    Count,
    Repair,
}

/// The result of a store's repair added, beside the count of its marks and beside
/// its repair, in the same rounds.
fn addition(store: &Store) -> [Vec<Figures>; 2] {
    let mut out = Buffers::new(store.side);
    let (answer, _) = Doer::Library.repair(store, &mut out);
    let marks = out.marks.clone();
    compare_addition(&marks, answer);

    let additions = (MARKS / marks.len()).min(ADDITIONS);
    let turns = [additions, additions, REPAIRED.div_ceil(marks.len())];
    let times = rounds([Work::Addition, Work::Count, Work::Repair], |work| {
        let mut wear = Report::default();
        for _ in 0..turns[work as usize] {
            match work {
                Work::Addition => {
                    black_box(sudoku::c::wear_add(&mut wear, black_box(&marks), answer));
                    black_box(&wear);
                }
                Work::Count => {
                    black_box(peer::wear::count(black_box(&marks)));
                }
                Work::Repair => {
                    black_box(Doer::Library.repair(black_box(store), &mut out));
                    black_box(&out);
                }
            }
        }
    });
    let (_, nanoseconds) = unit(store.side);
    let beside = |measure| {
        let each =
            |of: &[f64; 3]| figures(&[0, measure].map(|i| of[i] / (turns[i] as f64 * nanoseconds)));
        times.iter().map(each).collect()
    };
    [1, 2].map(beside)
}

/// Makes sure that the library adds what the peer counts.
fn compare_addition(marks: &[u8], answer: u32) {
    let mut wear = Report::default();
    assert_eq!(sudoku::c::wear_add(&mut wear, marks, answer), 0, "answer");
    assert_eq!(wear[..2], [1, marks.len() as u64], "stores and lines");
    assert_eq!(wear[2..7], peer::wear::count(marks), "marks");
    let answers = [0, 11, 12].map(|of| u64::from(of == answer));
    assert_eq!(wear[7..], answers, "answers");
}

/// Pairs of reports compared, from both sides: nanoseconds for a comparison.
fn comparison(pairs: &[[(u64, u64); 2]; 4]) -> Vec<Figures> {
    let pairs = pairs.map(|pair| pair.map(report));
    let pairs: Vec<[Report; 2]> = pairs
        .into_iter()
        .flat_map(|[a, b]| [[a, b], [b, a]])
        .collect();
    for [a, b] in &pairs {
        let given = sudoku::c::wear_compare(a, b);
        assert!(given.0 == 0 && given == peer::wear::compare(a, b), "order");
    }
    let times = rounds(BOTH, |timed| {
        for _ in 0..COMPARISONS {
            for [a, b] in black_box(&pairs) {
                black_box(match timed {
                    Timed::Library => sudoku::c::wear_compare(a, b),
                    Timed::Measure => peer::wear::compare(a, b),
                });
            }
        }
    });
    scaled(times, (COMPARISONS * pairs.len()) as f64)
}

/// A report with these rebuilt and all lines, in as few stores as hold them.
fn report((rebuilt, lines): (u64, u64)) -> Report {
    let stores = lines.div_ceil(4_194_304);
    let clean = lines - rebuilt;
    [stores, lines, clean, 0, 0, rebuilt, 0, stores, 0, 0]
}
