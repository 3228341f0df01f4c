//! Every sample of document 01, its edges, and what is "plausible, and false".

use reference::code::LineCode;
use reference::draw::{Outcome, Store, flip};
use reference::hamming::Named;
use reference::random::Random;
use reference::{
    LINE_BYTES, ReadLine, change_line, check_file, draw, line, make_tables, read_line, storecheck,
    write_line,
};

const ZERO_LINE: [u8; LINE_BYTES] = [0; LINE_BYTES];

/// The line whose only data place set is 511.
fn line_511() -> [u8; LINE_BYTES] {
    let mut line = ZERO_LINE;
    line[63] = 0x80;
    line[64..].copy_from_slice(&[0xC7, 0x6F, 0x66, 0x56, 0x09, 0x00]);
    line
}

fn zero_line_hurt(places: &[usize]) -> [u8; LINE_BYTES] {
    let mut line = ZERO_LINE;
    flip(&mut line, places);
    line
}

fn syndrome(line: &[u8]) -> usize {
    LineCode::store().syndrome(&line::places(line))
}

fn named(syndrome: usize) -> Named {
    LineCode::store().hamming().named(syndrome)
}

/// Reads alone; gives the line, the mark and the answer.
fn read(line: &[u8]) -> ([u8; LINE_BYTES], u8, u32) {
    let mut out = [0xEE; LINE_BYTES];
    let ReadLine { answer, mark } = read_line(line, &mut out);
    (out, mark, answer)
}

/// A 2 by 2 store of zero lines, each hurt at its places, after repair.
fn two_by_two(hurt: [&[usize]; 4]) -> Outcome {
    let mut store = Store::zero(2, 2);
    for (n, places) in hurt.into_iter().enumerate() {
        store.hurt(n, places);
    }
    store.repaired(0xEE)
}

fn expect_zero_store(outcome: &Outcome, marks: [u8; 4], passes: u64) {
    assert_eq!(outcome.marks, marks);
    assert_eq!(outcome.passes, passes);
    assert_eq!(outcome.answer, 0);
    assert_eq!(outcome.lines, [0; 4 * LINE_BYTES]);
    expect_zero_tables(outcome);
}

/// Both tables are those of the 2 by 2 store of zero lines.
fn expect_zero_tables(outcome: &Outcome) {
    assert_eq!(outcome.row_table, [0; 2 * LINE_BYTES]);
    assert_eq!(outcome.column_table, [0; 2 * LINE_BYTES]);
}

#[test]
fn zero_data_give_zero_bytes() {
    let mut line = [0xEE; LINE_BYTES];
    assert_eq!(write_line(&[0; 64], &mut line), 0);
    assert_eq!(line, ZERO_LINE);
}

#[test]
fn place_511_gives_its_sample() {
    let mut data = [0; 64];
    data[63] = 0x80;
    let mut line = [0xEE; LINE_BYTES];
    assert_eq!(write_line(&data, &mut line), 0);
    assert_eq!(line, line_511());
}

#[test]
fn one_hurt_place_is_accepted() {
    for (place, mark) in [(0, 1), (542, 1), (543, 1)] {
        assert_eq!(read(&zero_line_hurt(&[place])), (ZERO_LINE, mark, 0));
    }
}

#[test]
fn hurt_at_0_and_1() {
    let line = zero_line_hurt(&[0, 1]);
    assert_eq!(syndrome(&line), 6);
    assert_eq!(named(6), Named::Protected(2));
    assert_eq!(read(&line), (line, 4, 10));
}

#[test]
fn hurt_at_2_and_3() {
    let line = zero_line_hurt(&[2, 3]);
    assert_eq!(syndrome(&line), 1);
    assert_eq!(named(1), Named::Hamming(0));
    assert_eq!(read(&line), (line, 4, 10));
}

#[test]
fn hurt_at_35_and_552() {
    let line = zero_line_hurt(&[35, 552]);
    assert_eq!(syndrome(&line), 554);
    assert_eq!(named(554), Named::None);
    assert_eq!(read(&line), (line, 4, 10));
}

#[test]
fn hurt_at_34_and_552() {
    let line = zero_line_hurt(&[34, 552]);
    assert_eq!(syndrome(&line), 553);
    assert_eq!(named(553), Named::Protected(542));
    assert_eq!(read(&line), (line, 4, 10));
}

#[test]
fn one_line_is_rebuilt() {
    let outcome = two_by_two([&[0, 1], &[], &[], &[]]);
    expect_zero_store(&outcome, [3, 0, 0, 0], 1);
}

#[test]
fn two_lines_are_mended_by_trial() {
    let outcome = two_by_two([&[0, 1], &[2, 3], &[], &[]]);
    expect_zero_store(&outcome, [2, 2, 0, 0], 1);
}

#[test]
fn empty_mismatch_is_rebuilt_by_columns() {
    let outcome = two_by_two([&[0, 1], &[0, 1], &[], &[]]);
    expect_zero_store(&outcome, [3, 3, 0, 0], 1);
}

#[test]
fn three_lines_are_rebuilt() {
    let outcome = two_by_two([&[0, 1], &[0, 1], &[0, 1], &[]]);
    expect_zero_store(&outcome, [3, 3, 3, 0], 1);
}

#[test]
fn four_lines_alike_are_left() {
    let outcome = two_by_two([&[0, 1]; 4]);
    assert_eq!(outcome.marks, [4; 4]);
    assert_eq!((outcome.passes, outcome.answer), (1, 11));
    assert_eq!(outcome.lines, zero_line_hurt(&[0, 1]).repeat(4));
    expect_zero_tables(&outcome);
}

#[test]
fn a_foreign_line_answers_12() {
    let mut store = Store::zero(2, 2);
    store.line_mut(0).copy_from_slice(&line_511());
    let outcome = store.repaired(0xEE);
    assert_eq!(outcome.marks, [0; 4]);
    assert_eq!((outcome.passes, outcome.answer), (0, 12));
    assert_eq!(outcome.lines, store.lines);
    expect_zero_tables(&outcome);
}

#[test]
fn report_on_the_zero_store() {
    let report = "store 2 2\nclean 4\nalone 0\ntrial 0\nrebuilt 0\nfaulty 0\npasses 0\nanswer 0\n";
    assert_eq!(storecheck(&Store::zero(2, 2).file()), report);
}

#[test]
fn positions_named_in_the_rules() {
    let hamming = LineCode::store().hamming();
    let positions = hamming.positions();
    assert_eq!(positions.len(), 543);
    for (place, position) in [(0, 3), (501, 511), (502, 513), (542, 553)] {
        assert_eq!(positions[place], position);
        assert_eq!(hamming.named(position), Named::Protected(place));
    }
    assert!(positions.is_sorted_by(|a, b| a < b));
    assert!(positions.iter().all(|p| !p.is_power_of_two()));
    assert_eq!(hamming.checks(), 10);
    assert_eq!(hamming.named(0), Named::None);
    for k in 0..10 {
        assert_eq!(hamming.named(1 << k), Named::Hamming(k));
    }
    for above in 554..1024 {
        assert_eq!(hamming.named(above), Named::None);
    }
    assert_eq!(LineCode::store().places(), 553);
}

#[test]
fn places_and_spare_bits_fill_the_bytes_once() {
    let mut seen = [0u8; LINE_BYTES];
    let places = (0..553).map(line::byte_and_bit);
    for (byte, bit) in places.chain(line::SPARE) {
        assert_eq!((seen[byte] >> bit) & 1, 0);
        seen[byte] |= 1 << bit;
    }
    assert_eq!(seen, [0xFF; LINE_BYTES]);
}

#[test]
fn six_mismatch_places_are_tried_seven_are_not() {
    // Two and four places: line 0 is mended by trial, line 1 rebuilt.
    let six = two_by_two([&[10, 20], &[100, 200, 300, 400], &[], &[]]);
    expect_zero_store(&six, [2, 3, 0, 0], 1);
    // Two and five places: no trial, both rebuilt by columns.
    let seven = two_by_two([&[10, 20], &[100, 200, 300, 400, 500], &[], &[]]);
    expect_zero_store(&seven, [3, 3, 0, 0], 1);
    // The same down a column: rows come first, so only a column that stands
    // against two hurt rows shows the trial.
    let column = |four: &[usize]| {
        two_by_two([
            &[10, 20],
            &[10, 20, 30, 40, 50],
            four,
            &[10, 20, 30, 40, 50],
        ])
    };
    // Row 0 has mismatch {30, 40, 50}, no place of line 0; row 1 likewise has
    // nine; column 0 has six, so line 0 is mended and line 2 rebuilt.
    let six = column(&[100, 200, 300, 400]);
    assert_eq!((six.answer, six.passes), (0, 2));
    assert_eq!(six.marks, [2, 3, 3, 3]);
    assert_eq!(six.lines, [0; 4 * LINE_BYTES]);
    // With seven nothing is tried anywhere that helps.
    let seven = column(&[100, 200, 300, 400, 500]);
    assert_eq!((seven.answer, seven.passes), (11, 1));
    assert_eq!(seven.marks, [4; 4]);
}

#[test]
fn sides_2_and_512_pass_1_and_513_do_not() {
    let sides = [
        (2, 2),
        (2, 512),
        (512, 2),
        (1, 2),
        (2, 1),
        (513, 2),
        (2, 513),
    ];
    let more = [(0, 2), (2, 0), (1, 513), (usize::MAX, usize::MAX)];
    for (rows, columns) in sides.into_iter().chain(more) {
        let answer = if rows.min(columns) >= 2 && rows.max(columns) <= 512 {
            0
        } else {
            2
        };
        let fits = answer == 0 || rows.max(columns) <= 513;
        let (r, c) = if fits { (rows, columns) } else { (0, 0) };
        let mut store = Store::zero(r, c);
        let mut call = draw::call_on(&mut Random::new(6), store.clone());
        (call.rows, call.columns) = (rows, columns);
        let given = call.repaired();
        assert_eq!(
            (given.answer, given.passes),
            (answer, 0),
            "{rows} by {columns}"
        );
        assert_eq!(
            make_tables(
                rows,
                columns,
                &store.lines,
                &mut store.row_table,
                &mut store.column_table
            ),
            answer
        );
        let changed = change_line(
            rows,
            columns,
            &mut store.lines,
            &mut store.row_table,
            &mut store.column_table,
            0,
            &[1; 64],
        );
        assert_eq!((changed.answer, changed.number), (answer, 0));
        if answer == 2 {
            let before = Outcome::before(&call);
            assert_eq!(given, Outcome { answer, ..before });
            assert_eq!(store, Store::zero(r, c));
        }
    }
}

#[test]
fn the_greatest_store_passes() {
    let mut random = Random::new(512);
    let mut store = Store::zero(512, 512);
    // One line in each row and column, hurt alike; one more has one bit.
    for i in 0..512 {
        store.hurt(i * 512 + i, &[3, 4, 5]);
    }
    store.hurt(7, &[0]);
    store.line_mut(512 * 512 - 2)[69] = 0xFC;
    // The last row's and the last column's parity lines: one can't be used.
    store.hurt_row_parity(511, &[3, 4, 5]);
    store.hurt_column_parity(511, &[3]);
    let outcome = store.repaired(0xEE);
    assert_eq!((outcome.answer, outcome.passes), (0, 1));
    let zero = Store::zero(512, 512);
    assert!(outcome.lines == zero.lines);
    assert!(outcome.row_table == zero.row_table && outcome.column_table == zero.column_table);
    let count = |mark| outcome.marks.iter().filter(|&&m| m == mark).count();
    assert_eq!([count(1), count(3)], [1, 512]);
    assert_eq!(outcome.marks[512 * 512 - 2], 0);

    let file = store.file();
    assert_eq!(check_file(&file).answer, 0);
    assert_eq!(storecheck(&file), "answer 3\n");
    let cut = random.between(28, file.len() - 1);
    assert_eq!(check_file(&file[..cut]).answer, 4);
}

#[test]
fn twenty_seven_bytes_of_file_give_1() {
    let file = Store::zero(2, 2).file();
    assert_eq!(check_file(&file[..27]).answer, 1);
    assert_eq!(storecheck(&file[..27]), "answer 1\n");
    assert_eq!(check_file(&file[..28]).answer, 4);
    assert_eq!(storecheck(&file[..28]), "answer 4\n");
    assert_eq!(storecheck(&[]), "answer 1\n");
}

#[test]
fn sides_16_and_17_in_the_program() {
    let passing = storecheck(&Store::zero(16, 16).file());
    assert!(passing.starts_with("store 16 16\nclean 256\n"));
    for (rows, columns) in [(17, 2), (2, 17), (512, 512)] {
        let file = Store::zero(rows, columns).file();
        assert_eq!(check_file(&file).answer, 0);
        // Refusal 3 comes before 4, whatever follows the header.
        assert_eq!(storecheck(&file), "answer 3\n");
        assert_eq!(storecheck(&file[..28]), "answer 3\n");
    }
    // Refusal 2 comes before 3.
    assert_eq!(storecheck(&Store::zero(1, 17).file()), "answer 2\n");
    assert_eq!(storecheck(&Store::zero(513, 2).file()), "answer 2\n");
}

#[test]
fn plausible_believing_the_corrector() {
    // The corrector would flip place 2; the line must stay as found.
    let line = zero_line_hurt(&[0, 1]);
    assert_eq!(read(&line).0, line);
    // It is so for a line that isn't zero, spare bits set too.
    let mut line = line_511();
    flip(&mut line, &[0, 1]);
    let mut with_spare = line;
    with_spare[67] |= 0x80;
    with_spare[69] |= 0xFC;
    assert_eq!(read(&with_spare), (line, 4, 10));
}

#[test]
fn plausible_mismatch_after_the_corrector() {
    // Both lines' syndromes name a place that isn't hurt. With those flips
    // the mismatch would have eight places, without them it has six.
    let (a, b): (&[usize], &[usize]) = (&[0, 1], &[100, 200, 300, 400]);
    for places in [a, b] {
        let line = zero_line_hurt(places);
        let Named::Protected(place) = named(syndrome(&line)) else {
            panic!("{places:?} should name a protected place");
        };
        assert!(!a.contains(&place) && !b.contains(&place));
    }
    let outcome = two_by_two([a, b, &[], &[]]);
    expect_zero_store(&outcome, [2, 3, 0, 0], 1);
}

#[test]
fn plausible_mismatch_worked_out_again() {
    // The mismatch is {0, 6, 7, 8}: line 0 is mended by place 0. Line 1 has
    // none of them; worked out again, it would have place 1.
    let mut store = Store::zero(2, 3);
    store.hurt(0, &[0, 1]);
    store.hurt(1, &[1, 5]);
    store.hurt(2, &[5, 6, 7, 8]);
    let outcome = store.repaired(0xEE);
    assert_eq!(outcome.marks, [2, 3, 3, 0, 0, 0]);
    assert_eq!((outcome.passes, outcome.answer), (1, 0));
    let zero = Store::zero(2, 3);
    assert_eq!(outcome.lines, zero.lines);
    assert_eq!(outcome.row_table, zero.row_table);
    assert_eq!(outcome.column_table, zero.column_table);
}

#[test]
fn plausible_mismatch_worked_out_again_by_place_1() {
    // The mismatch is {1, 3, 4}: line 0 is mended by place 1. Line 1 has none
    // of them; worked out again, it would be {0, 3, 4}, of which line 1 has 0.
    let mut store = Store::zero(2, 3);
    store.hurt(0, &[0, 1]);
    store.hurt(1, &[0, 2]);
    store.hurt(2, &[2, 3, 4]);
    let outcome = store.repaired(0xEE);
    assert_eq!(outcome.marks, [2, 3, 3, 0, 0, 0]);
    assert_eq!((outcome.passes, outcome.answer), (1, 0));
    let zero = Store::zero(2, 3);
    assert_eq!(outcome.lines, zero.lines);
    assert_eq!(outcome.row_table, zero.row_table);
    assert_eq!(outcome.column_table, zero.column_table);
}

#[test]
fn plausible_rebuilding_beside_a_faulty_line() {
    // Each row and column has two faulty lines and a mismatch above six.
    let outcome = two_by_two([&[0, 1], &[2, 3, 4, 5, 6], &[7, 8, 9, 10, 11], &[12, 13]]);
    assert_eq!(outcome.marks, [4; 4]);
    assert_eq!((outcome.passes, outcome.answer), (1, 11));
}

#[test]
fn plausible_stopping_early() {
    let mut random = Random::new(3);
    for side in [2, 3, 4, 9, 30] {
        let mut store = draw::staircase(&mut random, side);
        let outcome = store.repaired(0xEE);
        assert_eq!(outcome.answer, 0);
        assert_eq!(outcome.passes, (side as u64).div_ceil(2));
        // The lines returned make the tables handed in, which come back too.
        let tables = store.clone();
        store.lines = outcome.lines;
        assert_eq!(store.tables_anew(), 0);
        assert_eq!(store.row_table, tables.row_table);
        assert_eq!(store.column_table, tables.column_table);
        assert_eq!(outcome.row_table, tables.row_table);
        assert_eq!(outcome.column_table, tables.column_table);
    }
}
