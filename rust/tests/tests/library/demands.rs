//! Demand 3 as a property, damage beyond it, and all pairs of places of one
//! line.

use library_tests::{Interface, Library, as_many_as_usual, cases, seed};
use reference::draw::{self, Outcome, Store};
use reference::random::Random;
use reference::{LINE_BYTES, PLACES, PROTECTED_PLACES};

use crate::parity::q3::cases::{EIGHT, some_of_eight};
use crate::samples;

/// Repairs a store with the library.
fn repaired(store: &Store) -> Outcome {
    samples::repaired(&Library, store)
}

/// Lines and tables are exactly those of this store.
fn expect_bytes(given: &Outcome, expected: &Store, case: usize) {
    assert!(given.lines == expected.lines, "case {case}");
    assert!(given.row_table == expected.row_table, "case {case}");
    assert!(given.column_table == expected.column_table, "case {case}");
}

/// Each parity line is that of the store written, or as found.
fn expect_parity(given: &Outcome, written: &Store, found: &Store) {
    let tables = |rows: &[u8], columns: &[u8]| [rows, columns].concat();
    let written = tables(&written.row_table, &written.column_table);
    let found = tables(&found.row_table, &found.column_table);
    let given = tables(&given.row_table, &given.column_table);
    let lines = written.chunks(LINE_BYTES).zip(found.chunks(LINE_BYTES));
    for (given, (written, found)) in given.chunks(LINE_BYTES).zip(lines) {
        assert!(given == written || given == found);
    }
}

/// Whether some parity line of a store is faulty.
pub fn has_unusable(store: &Store) -> bool {
    let tables = [&store.row_table[..], &store.column_table].concat();
    let mut parity = tables.chunks(LINE_BYTES);
    parity.any(|parity| samples::read(&Library, parity).2 != 0)
}

#[test]
fn demand_3_returns_exactly_the_rectangle_written() {
    let mut random = Random::new(seed());
    let count = cases(20_000);
    let mut by_mark = [0; 5];
    let mut longest = 0;
    let mut most_passes = 0;
    let mut unusable = 0;
    for case in 0..count {
        let (rows, columns) = draw::sides(&mut random, 2 + case % 9);
        let wanted = random.below(2 * (rows + columns));
        let drawn = draw::ordered(&mut random, rows, columns, wanted);
        assert!(draw::order_fits(&drawn.written, &drawn.hurt, &drawn.order));
        let given = repaired(&drawn.hurt);
        assert_eq!(given.answer, 0, "case {case}");
        expect_bytes(&given, &drawn.written, case);
        assert!(given.passes <= drawn.order.len() as u64, "case {case}");
        for &mark in &given.marks {
            by_mark[usize::from(mark)] += 1;
        }
        longest = longest.max(drawn.order.len());
        most_passes = most_passes.max(given.passes);
        unusable += usize::from(has_unusable(&drawn.hurt));
    }
    println!(
        "demand 3: {count} cases, {unusable} of them with unusable groups, \
         lines by mark {by_mark:?}, longest order {longest}, most passes {most_passes}"
    );
    assert_eq!(by_mark[4], 0);
    assert!(!as_many_as_usual() || unusable > count / 10);
}

#[test]
fn demand_3_on_long_orders() {
    // A closed staircase of two-bit lines: nothing opens but by trial.
    let mut random = Random::new(seed());
    for side in [2, 3, 5, 8, 13, 21] {
        let written = Store::random(&mut random, side, side);
        let mut hurt = written.clone();
        for i in 0..side {
            for j in 0..2 {
                let n = i * side + (i + j) % side;
                hurt.hurt(n, &[2 * i, 2 * i + 1 + j]);
            }
        }
        let given = repaired(&hurt);
        assert_eq!((given.answer, given.passes), (0, 1));
        expect_bytes(&given, &written, side);
    }
}

#[test]
fn a_line_on_the_way_to_another() {
    let line = draw::correct_line(&mut Random::new(seed()));
    let mut other = line;
    draw::flip(&mut other, &EIGHT);
    for bits in 0..256 {
        let places = some_of_eight(bits);
        let mut found = line;
        draw::flip(&mut found, &places);
        let mut out = [0xEE; LINE_BYTES];
        let read = Library.read_line(&found, &mut out);
        let expected = match places.len() {
            0 => (0, 0, line),
            1 => (0, 1, line),
            2..=6 => (10, 4, found),
            7 => (0, 1, other),
            _ => (0, 0, other),
        };
        assert_eq!((read.0, read.1, out), expected, "places {places:?}");
    }
}

#[test]
fn up_to_five_damaged_bits_no_line_is_wrong() {
    // No order is asked for: lines may be given up, but none is mended into
    // another, and neither is a parity line.
    let mut random = Random::new(seed());
    let mut by_mark = [0; 5];
    for case in 0..cases(5_000) {
        let (rows, columns) = draw::sides(&mut random, 2 + case % 6);
        let written = Store::random(&mut random, rows, columns);
        let mut hurt = written.clone();
        let mut up_to_five = || {
            let mut places = match random.below(3) {
                0 => vec![],
                1 => draw::places(&mut random, 5),
                _ => some_of_eight(random.below(256)),
            };
            places.truncate(random.between(1, 5));
            places
        };
        for n in 0..hurt.count() {
            hurt.hurt(n, &up_to_five());
        }
        if case % 2 == 0 {
            (0..rows).for_each(|row| hurt.hurt_row_parity(row, &up_to_five()));
            (0..columns).for_each(|column| hurt.hurt_column_parity(column, &up_to_five()));
        }
        let given = repaired(&hurt);
        for (n, line) in given.lines.chunks(LINE_BYTES).enumerate() {
            let from = if given.marks[n] == 4 { &hurt } else { &written };
            assert_eq!(line, from.line(n), "case {case}, line {n}");
            by_mark[usize::from(given.marks[n])] += 1;
        }
        let left = given.marks.contains(&4);
        assert_eq!(given.answer, if left { 11 } else { 0 });
        if left {
            expect_parity(&given, &written, &hurt);
        } else {
            expect_bytes(&given, &written, case);
        }
    }
    println!("up to five damaged bits: lines by mark {by_mark:?}");
    assert!(by_mark.iter().all(|&lines| lines > 0));
}

#[test]
fn past_five_damaged_bits_a_line_may_be_wrong() {
    let written = Store::zero(2, 2);
    let hurt = |lines: &[(usize, &[usize])]| {
        let mut store = written.clone();
        for &(n, places) in lines {
            store.hurt(n, places);
        }
        store
    };
    let all = hurt(&[(0, &EIGHT), (1, &EIGHT), (2, &EIGHT), (3, &EIGHT)]);
    let one = hurt(&[(0, &EIGHT)]);
    let seven = hurt(&[(0, &EIGHT[..7])]);
    // Beside a line of six, one that is hurt at the seventh place.
    let six = hurt(&[(0, &EIGHT[..6]), (1, &EIGHT[3..7])]);
    let two = hurt(&[(0, &EIGHT), (1, &EIGHT)]);

    // What is found, and what repair makes of it.
    let cases = [
        // The line is taken for another.
        (&one, 12, 0, &one, [0, 0, 0, 0]),
        (&seven, 12, 0, &one, [1, 0, 0, 0]),
        // A trial at that place takes, and the other line is rebuilt from it.
        (&six, 12, 1, &two, [2, 3, 0, 0]),
        // All cancel in their rows and columns: nothing tells.
        (&all, 0, 0, &all, [0, 0, 0, 0]),
    ];
    for (i, (found, answer, passes, given, marks)) in cases.into_iter().enumerate() {
        let repaired = repaired(found);
        assert_eq!((repaired.answer, repaired.passes), (answer, passes));
        assert_eq!(repaired.marks, marks, "case {i}");
        expect_bytes(&repaired, given, i);
    }
}

/// Reads one line alone with every pair of its places hurt.
///
/// Two Hamming bits: the line comes back, with mark 1. Any other pair: it is
/// faulty, and given back as found.
fn all_pairs(line: [u8; LINE_BYTES]) -> usize {
    let mut count = 0;
    for b in 0..PLACES {
        for a in 0..b {
            let mut found = line;
            draw::flip(&mut found, &[a, b]);
            let mut out = [0xEE; LINE_BYTES];
            let (answer, mark) = Library.read_line(&found, &mut out);
            if a >= PROTECTED_PLACES {
                assert_eq!((answer, mark, out), (0, 1, line), "places {a} and {b}");
            } else {
                assert_eq!((answer, mark, out), (10, 4, found), "places {a} and {b}");
            }
            count += 1;
        }
    }
    count
}

#[test]
fn all_pairs_of_places() {
    let line = draw::correct_line(&mut Random::new(seed()));
    let count = all_pairs(line);
    println!("pairs of places: {count} cases");
    assert_eq!(count, 553 * 552 / 2);
}

#[test]
fn all_single_places() {
    let line = draw::correct_line(&mut Random::new(seed()));
    for place in 0..PLACES {
        let mut found = line;
        draw::flip(&mut found, &[place]);
        let mut out = [0xEE; LINE_BYTES];
        assert_eq!(Library.read_line(&found, &mut out), (0, 1));
        assert_eq!(out, line);
    }
}
