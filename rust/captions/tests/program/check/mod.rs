//! `captions check`: reports in words, as JSON and as pictures.

mod coloured;
mod folded;
pub mod json;
mod svg;
mod words;

use reference::draw::Store;
use reference::random::Random;

use crate::support::shows::{drawn, hamlet_store, in_disagreement, play, with_lost};
use crate::{cases, seed};

/// Stores of many sides, hurt in drawn ways, and one of each answer.
pub fn stores() -> Vec<Store> {
    let mut random = Random::new(seed());
    let mut stores = vec![hamlet_store(), with_lost(4, 4), in_disagreement(3, 5)];
    for sides in [(2, 2), (2, 7), (7, 2), (3, 3), (4, 6), (5, 5)] {
        stores.extend((0..cases(30)).map(|_| drawn(&mut random, sides)));
    }
    for sides in [(16, 16), (3, 90), (40, 4)] {
        stores.extend((0..cases(6)).map(|_| drawn(&mut random, sides)));
    }
    stores
}

/// A play with each of the marks 0 to 4: a line mends itself, two are mended by
/// trial, one is rebuilt, and four at the corners of a rectangle are lost.
pub fn with_every_mark(rows: usize, columns: usize) -> Store {
    let mut store = play(rows, columns);
    store.hurt(0, &[77]);
    store.hurt(columns, &[10, 300]);
    store.hurt(columns + 2, &[55, 410]);
    store.hurt(2 * columns + 1, &[1, 100, 200, 300, 400]);
    let lost = [(3, 3), (3, 4), (4, 3), (4, 4)];
    for (k, (row, column)) in lost.into_iter().enumerate() {
        let places: Vec<usize> = (0..5).map(|j| 17 * k + 90 * j).collect();
        store.hurt(row * columns + column, &places);
    }
    store
}

#[test]
fn a_store_with_every_mark_has_every_mark() {
    let checked = crate::support::Checked::of(with_every_mark(5, 6));
    let counts: Vec<usize> = (0..5).map(|mark| checked.count(mark)).collect();
    assert_eq!(counts, [22, 1, 2, 1, 4]);
}
