//! The safe crate: its store does what the second implementation does, bad
//! input comes back as a refusal, and threads may call at once.

use library_tests::seed;
use reference::draw;
use reference::random::Random;
use sudoku::{
    LINE_BYTES, Mark, NotWhole, Outcome, Refusal, Repaired, Step, Store, read_line, write_line,
};

/// The crate's store of these bytes.
pub fn store_of(drawn: &draw::Store) -> Store {
    Store::from_parts(
        drawn.rows,
        drawn.columns,
        &drawn.lines,
        &drawn.row_table,
        &drawn.column_table,
    )
    .expect("right lengths")
}

#[test]
fn every_number_is_an_outcome_or_a_refusal() {
    for number in 0..20 {
        let (outcome, refusal) = (
            Outcome::from_number(number),
            Refusal::from_numbers(number, 5),
        );
        assert_eq!(outcome.is_some(), [0, 11, 12].contains(&number));
        assert_eq!(refusal.is_some(), outcome.is_none());
        let numbers = outcome
            .map(Outcome::number)
            .or(refusal.map(Refusal::number));
        assert_eq!(numbers, Some(number));
        // 3 is the program's alone, and no answer is 9.
        let unknown = [3, 9].contains(&number) || number > 15;
        assert_eq!(unknown, refusal == Some(Refusal::Other(number)));
    }
    let row = Refusal::RowParity { row: 5 };
    assert_eq!(Refusal::from_numbers(13, 5), Some(row));
    let column = Refusal::ColumnParity { column: 511 };
    assert_eq!(Refusal::from_numbers(14, 511), Some(column));
    assert_eq!(Refusal::from_numbers(15, 5), Some(Refusal::Wear));
    assert_eq!(Outcome::ALL.map(Outcome::number), [0, 11, 12]);
    assert_eq!(Outcome::ALL.map(Outcome::is_done), [true, false, false]);
}

#[test]
fn numbers_of_marks_and_steps() {
    for number in 0..=255 {
        assert_eq!(Mark::from_number(number).number(), number);
    }
    let marks = [
        Mark::Clean,
        Mark::Rewritten,
        Mark::Trial,
        Mark::Rebuilt,
        Mark::Faulty,
    ];
    assert_eq!([0, 1, 2, 3, 4].map(Mark::from_number), marks);
    assert_eq!(Mark::ALL, marks);
    for number in 0..5 {
        assert_eq!(Step::from_number(number).number(), number);
    }
    let steps = [Step::Alone, Step::Row, Step::Repair];
    assert_eq!([1, 2, 3].map(Step::from_number), steps);
    assert_eq!(Step::from_number(0), Step::Other(0));
}

#[test]
fn words_for_people() {
    let outcomes = [
        "every line is whole",
        "faulty lines are left",
        "lines and tables differ: trust no line",
    ];
    assert_eq!(Outcome::ALL.map(|outcome| outcome.to_string()), outcomes);
    assert_eq!(
        format!("[{:22}]", Outcome::Left),
        "[faulty lines are left ]"
    );
    let left = |lines| NotWhole::Left { lines }.to_string();
    assert_eq!(left(1), "1 line is left faulty");
    assert_eq!(left(262_144), "262144 lines are left faulty");
    assert_eq!(NotWhole::Differs.to_string(), outcomes[2]);
    assert_eq!(format!("[{:>8}]", Mark::Trial), "[   trial]");
    assert_eq!(Mark::Other(9).to_string(), "unknown mark 9");
    assert_eq!(format!("[{:6}]", Step::Row), "[row   ]");
    assert_eq!(Step::Other(9).to_string(), "unknown step 9");
    assert_eq!(Refusal::Faulty.to_string(), "a line is faulty");
    assert_eq!(Refusal::Other(9).to_string(), "unknown answer 9");
}

/// However large a store is, what a programmer sees of it fits a line.
#[test]
fn words_for_programmers() {
    let largest = Store::new(512, 512).expect("the largest");
    let due = "Store { rows: 512, columns: 512, bytes: 18421788, .. }";
    assert_eq!(format!("{largest:?}"), due);
    let mut lines = largest.lines();
    assert!(lines.next().is_some());
    assert_eq!(format!("{lines:?}"), "Lines { left: 262143, .. }");
    // Two bits of one line turn over: a single pass rebuilds it.
    let mut store = Store::new(2, 2).expect("two by two");
    store.line_bytes_mut()[0] ^= 3;
    assert_eq!(
        format!("{:?}", store.repair()),
        "Repaired { outcome: Done, passes: 1, \
         store: Store { rows: 2, columns: 2, bytes: 588, .. }, \
         counts: Counts { lines: [3, 0, 0, 1, 0] }, .. }"
    );
}

#[test]
fn repair_of_a_store() {
    let mut random = Random::new(seed());
    for _ in 0..300 {
        let drawn = draw::hurt_store(&mut random, 6);
        let expected = drawn.repaired(0);
        let repaired = store_of(&drawn).repair();
        assert_eq!(repaired.outcome.number(), expected.answer);
        assert_eq!(repaired.passes, expected.passes);
        assert_eq!(repaired.store.line_bytes(), expected.lines);
        assert_eq!(repaired.store.row_table(), expected.row_table);
        assert_eq!(repaired.store.column_table(), expected.column_table);
        let marks: Vec<u8> = repaired.marks.iter().map(|mark| mark.number()).collect();
        assert_eq!(marks, expected.marks);
        expect_told(&repaired, &expected);
    }
}

/// What a repair tells about its lines is what its marks and its lines say.
fn expect_told(repaired: &Repaired, expected: &draw::Outcome) {
    for mark in 0..5 {
        let due = expected.marks.iter().filter(|&&of| of == mark).count() as u64;
        assert_eq!(repaired.counts.of(Mark::from_number(mark)), due);
        assert_eq!(repaired.counts.of(Mark::Other(mark)), 0);
    }
    assert_eq!(repaired.counts.total(), expected.marks.len() as u64);
    let lost: Vec<usize> = repaired.lost().collect();
    for (n, line) in expected.lines.chunks(LINE_BYTES).enumerate() {
        let faulty = expected.marks[n] == 4;
        assert_eq!(lost.contains(&n), faulty);
        let data = repaired.data(n);
        assert_eq!(
            data.as_ref().map(|data| &data[..]),
            (!faulty).then_some(&line[..64])
        );
    }
    assert!(lost.is_sorted_by(|a, b| a < b));
    assert_eq!(repaired.data(expected.marks.len()), None);
    assert_eq!(repaired.data(usize::MAX), None);
    let due = match expected.answer {
        0 => Ok(repaired.store.clone()),
        11 => Err(NotWhole::Left { lines: lost.len() }),
        _ => Err(NotWhole::Differs),
    };
    assert_eq!(repaired.is_whole(), due.is_ok());
    assert!(repaired.clone().whole() == due);
}

#[test]
fn lines_one_after_the_other() {
    let mut random = Random::new(seed());
    for _ in 0..50 {
        let drawn = draw::hurt_store(&mut random, 6);
        let store = store_of(&drawn);
        let due: Vec<&[u8]> = drawn.lines.chunks(LINE_BYTES).collect();
        assert_eq!(
            (store.lines().len(), store.reads().len()),
            (due.len(), due.len())
        );
        assert!(store.lines().eq(due.iter().copied()));
        assert!(store.lines().rev().eq(due.iter().rev().copied()));
        assert!((&store).into_iter().eq(store.lines()));
        for (n, read) in store.reads().enumerate() {
            assert_eq!(store.read(n), Ok(read));
            assert_eq!(read.whole().is_none(), read.is_faulty());
            assert_eq!(read.whole().unwrap_or(read.data()), read.data());
        }
        let is_faulty = |&n: &usize| store.read(n).is_ok_and(|read| read.is_faulty());
        let faulty: Vec<usize> = (0..due.len()).filter(is_faulty).collect();
        assert_eq!(store.faulty(), faulty);
    }
    // From both ends, until they meet.
    let store = Store::from_data(2, 2, &[[1; 64], [2; 64], [3; 64], [4; 64]]);
    let store = store.expect("two by two");
    let mut lines = store.lines();
    let firsts = [lines.next(), lines.next_back(), lines.nth(1)];
    assert_eq!(
        firsts.map(|line| line.map(|line| line[0])),
        [Some(1), Some(4), Some(3)]
    );
    assert_eq!(lines.len(), 0);
    assert_eq!([lines.next(), lines.next_back(), lines.next()], [None; 3]);
}

#[test]
fn writing_reading_and_changing() {
    let mut random = Random::new(seed());
    let data: Vec<[u8; 64]> = (0..12)
        .map(|_| {
            let mut data = [0; 64];
            random.fill(&mut data);
            data
        })
        .collect();
    let mut store = Store::from_data(3, 4, &data).expect("three by four");
    for (n, data) in data.iter().enumerate() {
        assert_eq!(store.line(n), Ok(&write_line(data)));
        let read = store.read(n).expect("a line");
        assert_eq!((read.data(), read.mark), (*data, Mark::Clean));
    }
    store.change(7, &[9; 64]).expect("a change");
    let mut anew = store.clone();
    anew.make_tables().expect("tables");
    assert_eq!(anew, store);
    let mut hurt = write_line(&[9; 64]);
    hurt[0] ^= 1;
    assert_eq!(read_line(&hurt).mark, Mark::Rewritten);
    // A Hamming bit alone.
    let mut hurt = write_line(&[9; 64]);
    hurt[68] ^= 1;
    let read = read_line(&hurt);
    assert_eq!((read.data(), read.mark), ([9; 64], Mark::Rewritten));
}

#[test]
fn bad_input_comes_back_as_a_refusal() {
    assert_eq!(Store::new(0, 5), Err(Refusal::Sides));
    assert_eq!(Store::new(usize::MAX, usize::MAX), Err(Refusal::Sides));
    assert_eq!(Store::from_data(2, 2, &[]), Err(Refusal::Buffer));
    let parts = |lines, rows, columns| {
        Store::from_parts(2, 2, &vec![0; lines], &vec![0; rows], &vec![0; columns])
    };
    assert_eq!(parts(279, 140, 140), Err(Refusal::Lines));
    assert_eq!(parts(280, 141, 140), Err(Refusal::Table));
    assert_eq!(parts(280, 140, 0), Err(Refusal::Table));

    let mut store = Store::new(2, 2).expect("two by two");
    assert_eq!(store.read(4), Err(Refusal::Number));
    assert_eq!(store.read_one(4), Err(Refusal::Number));
    assert_eq!(store.read_one(usize::MAX), Err(Refusal::Number));
    assert_eq!(store.line(usize::MAX), Err(Refusal::Number));
    assert_eq!(store.change(4, &[0; 64]), Err(Refusal::Number));
    store.line_bytes_mut()[LINE_BYTES] ^= 3;
    let before = store.clone();
    assert_eq!(store.change(1, &[1; 64]), Err(Refusal::Faulty));
    assert_eq!(store.make_tables(), Err(Refusal::Faulty));
    assert_eq!(store, before);
    store.column_table_mut()[0] ^= 1;
    let bad_column = Refusal::ColumnParity { column: 0 };
    assert_eq!(store.change(2, &[1; 64]), Err(bad_column));
    store.row_table_mut()[LINE_BYTES] ^= 1;
    let bad_row = Refusal::RowParity { row: 1 };
    let before = store.clone();
    assert_eq!(store.change(2, &[1; 64]), Err(bad_row));
    assert_eq!(store.change(0, &[1; 64]), Err(bad_column));
    assert_eq!(store, before);
}

#[test]
fn data_of_one_line_that_is_whole() {
    let data = [[1; 64], [2; 64], [3; 64], [4; 64], [5; 64], [6; 64]];
    let mut store = Store::from_data(2, 3, &data).expect("two by three");
    let whole = |store: &Store, n: usize| {
        let one = store.read_one(n).expect("a line");
        (one.step, one.read.mark, one.whole())
    };
    assert_eq!(whole(&store, 5), (Step::Alone, Mark::Clean, Ok(data[5])));
    store.line_bytes_mut()[2 * LINE_BYTES] ^= 1;
    let rewritten = (Step::Alone, Mark::Rewritten, Ok(data[2]));
    assert_eq!(whole(&store, 2), rewritten);
    store.line_bytes_mut()[0] ^= 3;
    assert_eq!(whole(&store, 0), (Step::Row, Mark::Rebuilt, Ok(data[0])));
    store.line_bytes_mut()[LINE_BYTES] ^= 12;
    assert_eq!(whole(&store, 1), (Step::Row, Mark::Trial, Ok(data[1])));
    // Lines 0, 1, 3 and 4 are now a ring, hurt alike; line 5 lies beside it.
    for (n, flips) in [(1, 12 ^ 3), (3, 3), (4, 3), (5, 24)] {
        store.line_bytes_mut()[n * LINE_BYTES] ^= flips;
    }
    for n in [0, 1, 3, 4] {
        let left = (Step::Repair, Mark::Faulty, Err(NotWhole::Left { lines: 1 }));
        assert_eq!(whole(&store, n), left);
    }
    assert_eq!(whole(&store, 5).2, Ok(data[5]));
}

#[test]
fn threads_call_at_once() {
    std::thread::scope(|scope| {
        for thread in 0..4 {
            scope.spawn(move || {
                let mut random = Random::new(seed() + thread);
                for _ in 0..50 {
                    let drawn = draw::hurt_store(&mut random, 5);
                    let expected = drawn.repaired(0);
                    let store = store_of(&drawn);
                    let repaired = store.repair();
                    assert_eq!(repaired.store.line_bytes(), expected.lines);
                    assert_eq!(repaired.store.row_table(), expected.row_table);
                    assert_eq!(repaired.store.column_table(), expected.column_table);
                    for (n, line) in expected.lines.chunks(LINE_BYTES).enumerate() {
                        let one = store.read_one(n).expect("a line");
                        assert_eq!(one.read.line, line);
                    }
                }
            });
        }
    });
}
