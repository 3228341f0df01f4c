//! One line wanted, each step beside its measure: for steps 1 and 2 a plain
//! clearing of the four buffers that the library works in, for step 3 a repair
//! and that clearing, and in the smallest store a reading of the line alone.

use std::hint::black_box;

use crate::doers::{Doer, compare_one, read_one};
use crate::stores::{Buffers, LINE_BYTES, Store};
use crate::table::{Bar, Figures, Row, scaled};
use crate::timing::{BOTH, Timed, rounds};
use crate::{SIDE, TURNS};

/// The line that is wanted of the large store, and another of its row.
const WANTED: usize = SIDE * (SIDE / 2) + 100;
const BESIDE: usize = WANTED + 200;

/// The side of the smallest store.
const LEAST: usize = 2;

/// Reads of a line in one turn of the smallest store, which stays in the cache.
const READS: usize = 1000;

/// The rows of the table, in the order in which `run` gives their rounds.
pub fn rows() -> Vec<Row> {
    let row = |name, unit, bars| Row::new(name, Some(unit), bars);
    vec![
        row(
            "step 1, 512 by 512, beside clearing",
            "µs",
            &[Bar::Measure(1.2)],
        ),
        row(
            "step 2, 512 by 512, beside clearing",
            "µs",
            &[Bar::Measure(1.2)],
        ),
        row(
            "step 3, 512 by 512, beside repair and clearing",
            "ms",
            &[Bar::Measure(1.15)],
        ),
        row(
            "step 1, 2 by 2, beside reading the line alone",
            "ns",
            &[Bar::Measure(3.0)],
        ),
    ]
}

/// For each row its figures in every round.
pub fn run(clean: &Store) -> Vec<Vec<Figures>> {
    // The row rebuilds one hurt line; of two that are hurt alike its mismatch is
    // empty, and the columns rebuild them.
    let by_row = clean.hurt_alike(&[WANTED]);
    let by_columns = clean.hurt_alike(&[WANTED, BESIDE]);
    let mut work = Buffers::new(SIDE);
    // A clearing takes a fraction of a millisecond.
    let micro = |given: Vec<[f64; 2]>| scaled(given, 1e3 * TURNS as f64);
    vec![
        micro(large(clean, 1, TURNS, &mut work)),
        micro(large(&by_row, 2, TURNS, &mut work)),
        scaled(large(&by_columns, 3, 1, &mut work), 1e6),
        scaled(smallest(), (TURNS * READS) as f64),
    ]
}

/// The line wanted of a large store, which takes this step, so many times.
fn large(store: &Store, step: u32, turns: usize, work: &mut Buffers) -> Vec<[f64; 2]> {
    compare_one(store, WANTED, step);
    let mut line = [0; LINE_BYTES];
    rounds(BOTH, |timed| {
        for _ in 0..turns {
            let store = black_box(store);
            match timed {
                Timed::Library => {
                    black_box(read_one(store, WANTED, work, &mut line));
                }
                Timed::Measure => {
                    if step == 3 {
                        black_box(Doer::Library.repair(store, work));
                        black_box(&*work);
                    }
                    work.clear();
                }
            }
            black_box((&*work, &line));
        }
    })
}

/// Lines of the smallest store that read alone, `TURNS` times `READS` of them.
fn smallest() -> Vec<[f64; 2]> {
    let store = Store::new(LEAST);
    let count = LEAST * LEAST;
    (0..count).for_each(|n| compare_one(&store, n, 1));
    let mut work = Buffers::new(LEAST);
    let mut line = [0; LINE_BYTES];
    rounds(BOTH, |timed| {
        for n in (0..TURNS * READS).map(|i| i % count) {
            let store = black_box(&store);
            match timed {
                Timed::Library => {
                    black_box(read_one(store, n, &mut work, &mut line));
                }
                Timed::Measure => {
                    let found = &store.lines[n * LINE_BYTES..][..LINE_BYTES];
                    black_box(Doer::Library.read_line(found, &mut line));
                }
            }
            black_box((&work, &line));
        }
    })
}
