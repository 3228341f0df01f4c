//! Every sample of document 01 and its edges, on both implementations.

use library_tests::forecast::forecast;
use library_tests::{Guarded, Interface, both};
use reference::LINE_BYTES;
use reference::draw::{Call, Outcome, Store, call_on, flip, forecast as patterns, staircase};
use reference::random::Random;
use sudoku::c::Out;

use crate::lookup::read_one;

/// What a line's buffer holds before it is written.
const FILLING: u8 = 0xEE;

const ZERO_LINE: [u8; LINE_BYTES] = [0; LINE_BYTES];

/// The line whose only data place set is 511.
fn line_511() -> [u8; LINE_BYTES] {
    let mut line = ZERO_LINE;
    line[63] = 0x80;
    line[64..].copy_from_slice(&[0xC7, 0x6F, 0x66, 0x56, 0x09, 0x00]);
    line
}

fn zero_line_hurt(places: &[usize]) -> [u8; LINE_BYTES] {
    let mut line = ZERO_LINE;
    flip(&mut line, places);
    line
}

/// Reads alone; gives the line, the mark and the answer.
pub fn read(on: &dyn Interface, line: &[u8]) -> (Vec<u8>, u8, u32) {
    let mut out = Guarded::new(&[FILLING; LINE_BYTES], 3);
    let (answer, mark) = on.read_line(line, out.content_mut());
    assert!(out.intact());
    (out.content().to_vec(), mark, answer)
}

/// What repair gives for a call, over guarded buffers.
pub fn repair(on: &dyn Interface, call: &Call) -> Outcome {
    let mut lines = Guarded::new(&call.out, 1);
    let mut marks = Guarded::new(&call.marks, 7);
    let mut row_table = Guarded::new(&call.row_out, 2);
    let mut column_table = Guarded::new(&call.column_out, 12);
    let (answer, passes) = on.repair(
        call.rows,
        call.columns,
        &call.lines,
        &call.row_table,
        &call.column_table,
        Out {
            lines: lines.content_mut(),
            marks: marks.content_mut(),
            row_table: row_table.content_mut(),
            column_table: column_table.content_mut(),
        },
    );
    let written = [&lines, &marks, &row_table, &column_table];
    assert!(written.into_iter().all(Guarded::intact));
    let [lines, marks, row_table, column_table] = written.map(|buffer| buffer.content().to_vec());
    Outcome {
        answer,
        passes,
        lines,
        marks,
        row_table,
        column_table,
    }
}

/// What repair gives for a store, over buffers that hold anything before.
pub fn repaired(on: &dyn Interface, store: &Store) -> Outcome {
    repair(on, &call_on(&mut Random::new(0), store.clone()))
}

/// A 2 by 2 store of zero lines, each hurt at its places, after repair.
fn two_by_two(on: &dyn Interface, hurt: [&[usize]; 4]) -> Outcome {
    let mut store = Store::zero(2, 2);
    for (n, places) in hurt.into_iter().enumerate() {
        store.hurt(n, places);
    }
    repaired(on, &store)
}

/// The whole zero store came back, with these marks and passes.
fn expect_zero_store(outcome: &Outcome, marks: [u8; 4], passes: u64) {
    assert_eq!(outcome.marks, marks);
    assert_eq!((outcome.passes, outcome.answer), (passes, 0));
    assert_eq!(outcome.lines, [0; 4 * LINE_BYTES]);
    expect_zero_tables(outcome);
}

/// Both tables are those of the 2 by 2 store of zero lines.
fn expect_zero_tables(outcome: &Outcome) {
    assert_eq!(outcome.row_table, [0; 2 * LINE_BYTES]);
    assert_eq!(outcome.column_table, [0; 2 * LINE_BYTES]);
}

#[test]
fn lines_written() {
    for on in both() {
        let mut data = [0; 64];
        let mut line = [FILLING; LINE_BYTES];
        assert_eq!(on.write_line(&data, &mut line), 0);
        assert_eq!(line, ZERO_LINE);
        data[63] = 0x80;
        assert_eq!(on.write_line(&data, &mut line), 0);
        assert_eq!(line, line_511());
    }
}

#[test]
fn lines_read_alone() {
    for on in both() {
        for (place, mark) in [(0, 1), (542, 1), (543, 1)] {
            let hurt = zero_line_hurt(&[place]);
            assert_eq!(read(on, &hurt), (ZERO_LINE.to_vec(), mark, 0));
        }
        for pair in [[0, 1], [2, 3], [35, 552], [34, 552]] {
            let hurt = zero_line_hurt(&pair);
            assert_eq!(read(on, &hurt), (hurt.to_vec(), 4, 10));
        }
    }
}

#[test]
fn two_by_two_stores() {
    let two: &[usize] = &[0, 1];
    for on in both() {
        let given = |hurt| two_by_two(on, hurt);
        expect_zero_store(&given([two, &[], &[], &[]]), [3, 0, 0, 0], 1);
        expect_zero_store(&given([two, &[2, 3], &[], &[]]), [2, 2, 0, 0], 1);
        expect_zero_store(&given([two, two, &[], &[]]), [3, 3, 0, 0], 1);
        expect_zero_store(&given([two, two, two, &[]]), [3, 3, 3, 0], 1);

        let left = given([two; 4]);
        assert_eq!(left.marks, [4; 4]);
        assert_eq!((left.passes, left.answer), (1, 11));
        assert_eq!(left.lines, zero_line_hurt(two).repeat(4));
        expect_zero_tables(&left);

        let mut foreign = Store::zero(2, 2);
        foreign.line_mut(0).copy_from_slice(&line_511());
        let differs = repaired(on, &foreign);
        assert_eq!(differs.marks, [0; 4]);
        assert_eq!((differs.passes, differs.answer), (0, 12));
        assert_eq!(differs.lines, foreign.lines);
        expect_zero_tables(&differs);
    }
}

#[test]
fn six_mismatch_places_are_tried_seven_are_not() {
    let four: &[usize] = &[100, 200, 300, 400];
    let five: &[usize] = &[100, 200, 300, 400, 500];
    let block: &[usize] = &[10, 20, 30, 40, 50];
    for on in both() {
        let row = |other| two_by_two(on, [&[10, 20], other, &[], &[]]);
        expect_zero_store(&row(four), [2, 3, 0, 0], 1);
        expect_zero_store(&row(five), [3, 3, 0, 0], 1);
        // Down a column, with both rows blocked.
        let column = |other| two_by_two(on, [&[10, 20], block, other, block]);
        expect_zero_store(&column(four), [2, 3, 3, 3], 2);
        let left = column(five);
        assert_eq!((left.answer, left.passes), (11, 1));
        assert_eq!(left.marks, [4; 4]);
    }
}

/// The answers of tables, change, repair, a read of one line and a forecast for a
/// zero store of these sides; refusals must write nothing.
fn answers_for_sides(on: &dyn Interface, rows: usize, columns: usize) -> [u32; 5] {
    let fits = rows.max(columns) <= 513;
    let (r, c) = if fits { (rows, columns) } else { (0, 0) };
    let store = Store::zero(r, c);
    let mut call = call_on(&mut Random::new(6), store.clone());
    (call.rows, call.columns) = (rows, columns);
    let given = repair(on, &call);
    let answer = given.answer;
    let before = Outcome::before(&call);
    let untouched = given == Outcome { answer, ..before };
    assert_eq!((given.passes, untouched), (0, answer != 0));

    let mut made = store.clone();
    let (of_rows, of_columns) = (&mut made.row_table, &mut made.column_table);
    let tables = on.make_tables(rows, columns, &made.lines, of_rows, of_columns);
    assert!(made == store);
    let (of_rows, of_columns) = (&mut made.row_table, &mut made.column_table);
    let (change, number) = on.change_line(
        rows,
        columns,
        &mut made.lines,
        of_rows,
        of_columns,
        0,
        &[1; 64],
    );
    assert_eq!((made == store, number), (change != 0, 0));

    let one = read_one(on, &call);
    let refused = (one.mark, one.step) == (0, 0) && one.after == call;
    assert_eq!(refused, one.answer != 0);

    let whole = vec![0; store.count()];
    let pattern = patterns::call_on(&mut Random::new(6), (rows, columns), whole);
    let foretold = forecast(on, &pattern, 8).answer;
    [tables, change, answer, one.answer, foretold]
}

#[test]
fn sides_2_and_512_pass_1_and_513_do_not() {
    for on in both() {
        for sides in [(2, 2), (2, 512), (512, 2)] {
            assert_eq!(answers_for_sides(on, sides.0, sides.1), [0; 5]);
        }
        let outside = [(1, 2), (2, 1), (513, 2), (2, 513), (0, 2), (2, 0), (1, 513)];
        let huge = [(usize::MAX, usize::MAX), (1 << 63, 2), (1 << 32, 1 << 32)];
        for sides in outside.into_iter().chain(huge) {
            assert_eq!(answers_for_sides(on, sides.0, sides.1), [2; 5]);
        }
    }
}

#[test]
fn long_chains_need_many_passes() {
    for on in both() {
        let mut random = Random::new(3);
        for side in [2usize, 3, 4, 9, 30] {
            let mut store = staircase(&mut random, side);
            let outcome = repaired(on, &store);
            assert_eq!(outcome.answer, 0);
            assert_eq!(outcome.passes, side.div_ceil(2) as u64);
            let handed_in = store.clone();
            store.lines = outcome.lines;
            assert_eq!(store.tables_anew(), 0);
            assert!(store.row_table == handed_in.row_table);
            assert!(store.column_table == handed_in.column_table);
            assert!(outcome.row_table == handed_in.row_table);
            assert!(outcome.column_table == handed_in.column_table);
        }
    }
}

#[test]
fn the_mismatch_is_worked_out_once() {
    // Of {0, 6, 7, 8} line 0 takes place 0, of {1, 3, 4} place 1. Worked out
    // again after that, the mismatch would mend line 1 by trial.
    let damage: [[&[usize]; 3]; 2] = [
        [&[0, 1], &[1, 5], &[5, 6, 7, 8]],
        [&[0, 1], &[0, 2], &[2, 3, 4]],
    ];
    for on in both() {
        for hurt in damage {
            let mut store = Store::zero(2, 3);
            for (n, places) in hurt.into_iter().enumerate() {
                store.hurt(n, places);
            }
            let outcome = repaired(on, &store);
            assert_eq!(outcome.marks, [2, 3, 3, 0, 0, 0]);
            assert_eq!((outcome.passes, outcome.answer), (1, 0));
            let zero = Store::zero(2, 3);
            assert_eq!(outcome.lines, zero.lines);
            assert_eq!(outcome.row_table, zero.row_table);
            assert_eq!(outcome.column_table, zero.column_table);
        }
    }
}

#[test]
fn plausible_and_false() {
    for on in both() {
        // The corrector would flip place 2: the line stays as found.
        let mut hurt = line_511();
        flip(&mut hurt, &[0, 1]);
        let mut with_spare = hurt;
        with_spare[67] |= 0x80;
        with_spare[69] |= 0xFC;
        assert_eq!(read(on, &with_spare), (hurt.to_vec(), 4, 10));
        // The mismatch worked out again after line 0 was mended would mend
        // line 1 by trial.
        let mut store = Store::zero(2, 3);
        store.hurt(0, &[0, 1]);
        store.hurt(1, &[1, 5]);
        store.hurt(2, &[5, 6, 7, 8]);
        let outcome = repaired(on, &store);
        assert_eq!(outcome.marks, [2, 3, 3, 0, 0, 0]);
        assert_eq!((outcome.passes, outcome.answer), (1, 0));
        // Nothing is rebuilt beside a faulty line.
        let left = two_by_two(
            on,
            [&[0, 1], &[2, 3, 4, 5, 6], &[7, 8, 9, 10, 11], &[12, 13]],
        );
        assert_eq!(left.marks, [4; 4]);
        assert_eq!((left.passes, left.answer), (1, 11));
    }
}
