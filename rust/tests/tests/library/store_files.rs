//! Store files through C's functions: both implementations against numbers worked
//! out by hand, and against each other on files right and wrong.

use library_tests::file::{
    Buffers, both_check, both_header, both_needed, both_open, check, header, needed, open,
};
use library_tests::{as_many_as_usual, both, cases, file_bytes, seed, watched};
use reference::draw::{self, Damage, Store};
use reference::file::HEADER_BYTES;
use reference::random::Random;
use sudoku::c::{Check, Layout};

use crate::marks::q1;
use crate::parity::q3;
use crate::samples::repaired;

/// The header of a 2 by 2 store, as docs/FORMAT.md has it.
const TWO_BY_TWO: [u8; HEADER_BYTES] = [
    0x02, 0x00, 0x02, 0x00, 0x1C, 0x00, 0x00, 0x00, 0x18, 0x01, 0x00, 0x00, 0x34, 0x01, 0x00, 0x00,
    0x8C, 0x00, 0x00, 0x00, 0xC0, 0x01, 0x00, 0x00, 0x8C, 0x00, 0x00, 0x00,
];

/// That of a 512 by 512 store: 28 and 18350080, 18350108 and 35840, 18385948 and
/// 35840.
const LARGEST: [u8; HEADER_BYTES] = [
    0x00, 0x02, 0x00, 0x02, 0x1C, 0x00, 0x00, 0x00, 0x00, 0x00, 0x18, 0x01, 0x1C, 0x00, 0x18, 0x01,
    0x00, 0x8C, 0x00, 0x00, 0x1C, 0x8C, 0x18, 0x01, 0x00, 0x8C, 0x00, 0x00,
];

/// The layout of these numbers, in the order of C's struct.
fn layout(numbers: [u64; 8]) -> Layout {
    let [rows, columns, numbers @ ..] = numbers;
    let [lines_offset, lines_bytes, numbers @ ..] = numbers;
    let [row_offset, row_bytes, column_offset, column_bytes] = numbers;
    Layout {
        rows,
        columns,
        lines_offset,
        lines_bytes,
        row_offset,
        row_bytes,
        column_offset,
        column_bytes,
    }
}

#[test]
fn files_worked_out_by_hand() {
    let small = [2, 2, 28, 280, 308, 140, 448, 140];
    let wide = [2, 3, 28, 420, 448, 140, 588, 210];
    let large = [
        512, 512, 28, 18_350_080, 18_350_108, 35_840, 18_385_948, 35_840,
    ];
    for on in both() {
        for (numbers, bytes) in [(small, 588), (wide, 798), (large, 18_421_788)] {
            let sides = (numbers[0] as usize, numbers[1] as usize);
            let (answer, begins) = header(on, sides, &[0xEE; HEADER_BYTES], 3);
            assert_eq!(answer, 0);
            assert_eq!(needed(on, &begins, 2), bytes + 1);
            let mut file = begins;
            file.resize(bytes, 0);
            assert_eq!(open(on, &file, 1), (0, layout(numbers)));
            // A start that opens as it is needs no more than its header.
            assert_eq!(needed(on, &file, 1), HEADER_BYTES);
        }
        assert_eq!(header(on, (2, 2), &[0; 28], 0).1, TWO_BY_TWO);
        assert_eq!(header(on, (512, 512), &[0; 28], 0).1, LARGEST);
    }
}

#[test]
fn headers_that_are_refused() {
    // The third and the fourth would be 2 in sixteen and in 32 bits.
    let outside = [0, 1, 513, 65_538, (1 << 32) + 2, 1 << 63, usize::MAX];
    for on in both() {
        let refused = |sides, length: usize| header(on, sides, &vec![0xEE; length], length).0;
        for side in outside {
            // The sides are tested first.
            for length in [HEADER_BYTES, 0, 27] {
                assert_eq!(refused((side, 2), length), 2);
                assert_eq!(refused((2, side), length), 2);
                assert_eq!(refused((side, side), length), 2);
            }
        }
        for length in [0, 1, 27, 29, 70, 588] {
            assert_eq!(refused((2, 2), length), 7);
            assert_eq!(refused((512, 512), length), 7);
        }
    }
}

#[test]
fn every_header_agrees() {
    let step = if watched() { 37 } else { 1 };
    for rows in (2..=512).step_by(step) {
        for columns in (2..=512).step_by(step) {
            let (answer, begins) = both_header((rows, columns), &[0xEE; HEADER_BYTES], rows);
            assert_eq!(answer, 0);
            assert_eq!(both_needed(&begins, columns), file_bytes(rows, columns) + 1);
        }
    }
}

/// Small files: a written store, a hurt one, and one of zeros.
fn small_files(random: &mut Random) -> [Vec<u8>; 3] {
    let written = Store::random(random, 2, 2).file();
    let mut hurt = Store::random(random, 2, 3);
    draw::hurt(random, &mut hurt, Damage::Crowded);
    [written, hurt.file(), Store::zero(3, 2).file()]
}

#[test]
fn files_cut_off_anywhere_or_with_bytes_after_them() {
    let mut random = Random::new(seed());
    let mut count = 0;
    for file in small_files(&mut random) {
        let mut long = file.clone();
        long.resize(file.len() + 100, 0xA5);
        let whole = Buffers::drawn(&mut random, 3, 3);
        for length in 0..=long.len() {
            let start = &long[..length];
            let due = match length {
                0..28 => 1,
                _ if length == file.len() => 0,
                _ => 4,
            };
            assert_eq!(both_open(start, length).0, due, "{length} bytes");
            let header_needed = if due == 4 {
                file.len() + 1
            } else {
                HEADER_BYTES
            };
            assert_eq!(both_needed(start, length), header_needed, "{length} bytes");
            if due != 0 {
                assert_eq!(both_check(start, &whole, length).answer, due);
            }
            count += 1;
        }
    }
    println!("differential, files cut off: {count} cases");
}

#[test]
fn every_byte_of_a_header_altered() {
    let mut random = Random::new(seed());
    let mut count = 0;
    for file in small_files(&mut random) {
        let (rows, columns) = (file[0].into(), file[2].into());
        let whole = Buffers::drawn(&mut random, rows, columns);
        for at in 0..HEADER_BYTES {
            for value in (0..=255).filter(|&value| value != file[at]) {
                let mut altered = file.clone();
                altered[at] = value;
                let (answer, _) = both_open(&altered, at);
                // A side that is allowed asks for another contents table.
                let side = |at: usize| u16::from_le_bytes([altered[at], altered[at + 1]]);
                let fits = [side(0), side(2)]
                    .iter()
                    .all(|side| (2..=512).contains(side));
                assert_eq!(answer, if fits { 4 } else { 2 }, "byte {at}: {value}");
                assert_eq!(both_needed(&altered, at), HEADER_BYTES);
                assert_eq!(both_needed(&altered[..HEADER_BYTES], at), HEADER_BYTES);
                assert_eq!(both_check(&altered, &whole, at).answer, answer);
                count += 1;
            }
        }
    }
    println!("differential, header bytes altered: {count} cases");
}

/// Files as long as their header says, of sides at the edges and beyond them.
#[test]
fn sides_at_the_edges() {
    let mut random = Random::new(seed());
    let sides = [0, 1, 2, 3, 511, 512, 513];
    let long = |rows: usize, columns: usize| rows * columns > 10_000;
    for rows in sides {
        for columns in sides
            .into_iter()
            .filter(|&columns| !watched() || !long(rows, columns))
        {
            let file = Store::zero(rows, columns).file();
            let fits = [rows, columns].iter().all(|side| (2..=512).contains(side));
            let due = if fits { 0 } else { 2 };
            assert_eq!(both_open(&file, rows).0, due, "{rows} by {columns}");
            // Repairing the longest by the second implementation takes long.
            if !long(rows, columns) {
                let buffers = Buffers::drawn(&mut random, rows, columns);
                assert_eq!(both_check(&file, &buffers, rows).answer, due);
            }
        }
    }
    for side in [514, 4_096, 65_535] {
        let begins = reference::file::header(side, side);
        assert_eq!(both_open(&begins, 3).0, 2);
        assert_eq!(both_needed(&begins, 3), HEADER_BYTES);
    }
}

#[test]
fn a_check_of_the_largest_store() {
    let side = if watched() { 24 } else { 512 };
    let mut random = Random::new(seed());
    let mut store = Store::zero(side, side);
    for n in (0..store.count()).step_by(211) {
        let line = draw::correct_line(&mut random);
        store.line_mut(n).copy_from_slice(&line);
    }
    assert_eq!(store.tables_anew(), 0);
    for way in [Damage::Crowded, Damage::OpenChain, Damage::ParityGone] {
        draw::hurt(&mut random, &mut store, way);
    }
    let buffers = Buffers::drawn(&mut random, side, side);
    let given = both_check(&store.file(), &buffers, 5);
    assert_eq!(given.check.rows * given.check.columns, store.count() as u64);
    println!("differential, a check of the largest store: 1 cases");
}

/// A check gives what repair gives for the file's lines and tables, and counts
/// its marks.
fn expect_repair(store: &Store, random: &mut Random, shift: usize) -> u32 {
    let (rows, columns) = store.sides();
    for on in both() {
        let buffers = Buffers::drawn(random, rows, columns);
        let given = check(on, &store.file(), &buffers, shift);
        let due = repaired(on, store);
        assert_eq!((given.answer, given.check.passes), (due.answer, due.passes));
        assert!(given.after.lines == due.lines && given.after.marks == due.marks);
        assert!(given.after.row_table == due.row_table);
        assert!(given.after.column_table == due.column_table);
        let sides = (given.check.rows as usize, given.check.columns as usize);
        assert_eq!(sides, store.sides());
        for (mark, lines) in (0..).zip(given.check.lines) {
            let of_mark = due.marks.iter().filter(|&&of| of == mark);
            assert_eq!(of_mark.count() as u64, lines, "mark {mark}");
        }
    }
    repaired(&library_tests::Library, store).answer
}

#[test]
fn a_check_is_a_repair_with_its_marks_counted() {
    let mut random = Random::new(seed());
    let mut seen = [0; 13];
    for _ in 0..cases(3_000) {
        let store = draw::hurt_store(&mut random, 6);
        let shift = random.below(16);
        seen[expect_repair(&store, &mut random, shift) as usize] += 1;
    }
    if as_many_as_usual() {
        let rare = [0, 11, 12].into_iter().find(|&answer| seen[answer] < 50);
        assert_eq!(rare, None, "{seen:?}");
    }
}

/// A check of this store counts what this report says.
fn expect_report(store: &Store, report: &str) {
    let number = |word: &str| -> u64 {
        let line = report.lines().find(|line| line.starts_with(word));
        let number = line.and_then(|line| line.split(' ').nth(1));
        number.and_then(|number| number.parse().ok()).expect(word)
    };
    let (rows, columns) = store.sides();
    let due = Check {
        rows: rows as u64,
        columns: columns as u64,
        lines: ["clean", "alone", "trial", "rebuilt", "faulty"].map(number),
        passes: number("passes"),
    };
    for on in both() {
        let buffers = Buffers::drawn(&mut Random::new(4), rows, columns);
        let given = check(on, &store.file(), &buffers, 4);
        assert_eq!(given.check, due, "{report}");
        assert_eq!(u64::from(given.answer), number("answer"), "{report}");
    }
}

#[test]
fn counts_worked_out_by_hand() {
    let (store, report) = q1::report();
    expect_report(&store, report);
    for case in q3::all() {
        let (rows, columns) = case.sides;
        expect_report(&case.hurt(&Store::zero(rows, columns)), &case.report());
    }
}

/// Buffers for a store of these sides. Of lines, marks, row table and column table
/// those have another length whose bit is set.
fn buffers_wrong_in(wrong: usize, random: &mut Random, sides: (usize, usize)) -> Buffers {
    let mut buffers = Buffers::drawn(random, sides.0, sides.1);
    let parts = [
        &mut buffers.lines,
        &mut buffers.marks,
        &mut buffers.row_table,
        &mut buffers.column_table,
    ];
    for (bit, part) in parts.into_iter().enumerate() {
        if wrong & (1 << bit) != 0 {
            let near = draw::near_length(random, part.len());
            let other = if near == part.len() { 0 } else { near };
            part.resize(other, 0xD7);
        }
    }
    buffers
}

/// Each thing of a check right or wrong, in every combination: the first that is
/// wrong answers.
#[test]
fn refusals_of_a_check_in_order() {
    let mut random = Random::new(seed());
    let store = draw::hurt_store(&mut random, 4);
    let file = store.file();
    let (mut sides, mut table) = (file.clone(), file.clone());
    sides[1] = 0xFF;
    table[9] ^= 1;
    let files = [
        (&file[..], store.repaired(0).answer),
        (&file[..27], 1),
        (&sides, 2),
        (&table, 4),
        (&file[..file.len() - 1], 4),
    ];
    for (file, of_file) in files {
        let opens = ![1, 2, 4].contains(&of_file);
        for wrong in 0..16 {
            let due = match wrong {
                0b0100.. if opens => 6,
                0b0001.. if opens => 7,
                _ => of_file,
            };
            let buffers = buffers_wrong_in(wrong, &mut random, store.sides());
            let given = both_check(file, &buffers, wrong).answer;
            assert_eq!(given, due, "file {of_file}, buffers {wrong:04b}");
        }
    }
    println!(
        "differential, refusals of a check: {} cases",
        16 * files.len()
    );
}

/// A drawn file: mostly of a store, often spoilt, or any bytes.
fn drawn_file(random: &mut Random) -> Vec<u8> {
    if !random.once_in(6) {
        return draw::store_file(random);
    }
    let mut file = vec![0; random.below(700)];
    random.fill(&mut file);
    // Any bytes after sides or after a header that could be right.
    let (rows, columns) = draw::sides(random, 6);
    let begins = reference::file::header(rows as u16, columns as u16);
    let kept = [0, 4, HEADER_BYTES][random.below(3)].min(file.len());
    file[..kept].copy_from_slice(&begins[..kept]);
    file
}

#[test]
fn drawn_files_agree() {
    let mut random = Random::new(seed());
    let mut seen = [0; 13];
    for _ in 0..cases(12_000) {
        let (file, shift) = (drawn_file(&mut random), random.below(16));
        let (answer, layout) = both_open(&file, shift);
        both_needed(&file, shift);
        both_needed(&file[..file.len().min(HEADER_BYTES)], shift);
        let (rows, columns) = match answer {
            0 => (layout.rows as usize, layout.columns as usize),
            _ => draw::sides(&mut random, 4),
        };
        let mut buffers = Buffers::drawn(&mut random, rows, columns);
        for part in [&mut buffers.lines, &mut buffers.marks] {
            if random.once_in(20) {
                part.resize(draw::near_length(&mut random, part.len()), 0);
            }
        }
        for part in [&mut buffers.row_table, &mut buffers.column_table] {
            if random.once_in(20) {
                part.resize(draw::near_length(&mut random, part.len()), 0);
            }
        }
        seen[both_check(&file, &buffers, shift).answer as usize] += 1;
    }
    println!("differential, drawn files: {} cases", cases(12_000));
    if as_many_as_usual() {
        let answers = [0, 1, 2, 4, 6, 7, 11, 12];
        let rare = answers.into_iter().find(|&answer| seen[answer] < 50);
        assert_eq!(rare, None, "{seen:?}");
    }
}
