//! Refusals, in checking order, and what they write.

use reference::draw::{self, Call, Outcome, Store, call_on, flip};
use reference::random::Random;
use reference::{
    Change, LINE_BYTES, One, Out, ReadLine, change_line, check_file, file, make_tables, read_line,
    read_one, storecheck, write_line,
};

const FILLING: u8 = 0xA5;

fn untouched(bytes: &[u8]) -> bool {
    bytes.iter().all(|&byte| byte == FILLING)
}

#[test]
fn write_line_refuses_lengths() {
    for (data, line) in [
        (63, 70),
        (65, 70),
        (0, 70),
        (64, 69),
        (64, 71),
        (64, 0),
        (1, 1),
    ] {
        let mut out = vec![FILLING; line];
        assert_eq!(write_line(&vec![1; data], &mut out), 7);
        assert!(untouched(&out));
    }
}

#[test]
fn read_line_refuses_in_order() {
    for (line, out, answer) in [
        (69, 70, 5),
        (71, 70, 5),
        (0, 0, 5),
        (69, 69, 5),
        (70, 69, 7),
        (70, 71, 7),
        (70, 0, 7),
    ] {
        let mut bytes = vec![FILLING; out];
        let read = read_line(&vec![1; line], &mut bytes);
        assert_eq!(read, ReadLine { answer, mark: 0 });
        assert!(untouched(&bytes));
    }
    // 10 still writes the line as found, spare bits 0.
    let mut line = [0; LINE_BYTES];
    flip(&mut line, &[0, 1]);
    let mut found = line;
    found[67] |= 0x80;
    found[69] |= 0xFC;
    let mut out = [FILLING; LINE_BYTES];
    let read = read_line(&found, &mut out);
    assert_eq!(
        read,
        ReadLine {
            answer: 10,
            mark: 4
        }
    );
    assert_eq!(out, line);
}

#[test]
fn spare_bits_are_ignored_when_read() {
    let mut random = Random::new(7);
    for _ in 0..200 {
        let line = draw::correct_line(&mut random);
        let mut found = line;
        draw::set_spare_bits(&mut random, &mut found, 1);
        let mut out = [FILLING; LINE_BYTES];
        assert_eq!(read_line(&found, &mut out), ReadLine { answer: 0, mark: 0 });
        assert_eq!(out, line);
    }
}

/// A call on a drawn store of these sides, for line 1.
fn call_of(rows: usize, columns: usize) -> Call {
    let store = Store::random(&mut Random::new(4), rows, columns);
    let mut call = call_on(&mut Random::new(5), store);
    call.n = 1;
    call
}

/// The answers of making tables, changing and repairing; whatever refuses must
/// have written nothing, and only a change's 13 and 14 may have a number.
fn answers(call: &Call) -> [u32; 3] {
    let (rows, columns) = (call.rows, call.columns);

    let mut made = call.clone();
    let (of_rows, of_columns) = (&mut made.row_table, &mut made.column_table);
    let tables = make_tables(rows, columns, &made.lines, of_rows, of_columns);
    assert!(tables == 0 || made == *call);

    let mut changed = call.clone();
    let Change {
        answer: change,
        number,
    } = change_line(
        rows,
        columns,
        &mut changed.lines,
        &mut changed.row_table,
        &mut changed.column_table,
        call.n,
        &call.data,
    );
    assert!(change == 0 || changed == *call);
    assert!([13, 14].contains(&change) || number == 0);

    [tables, change, repaired(call)]
}

/// The answer of repairing; a refusal must have written nothing and made no
/// pass.
fn repaired(call: &Call) -> u32 {
    let given = call.repaired();
    let answer = given.answer;
    if ![0, 11, 12].contains(&answer) {
        let before = Outcome::before(call);
        assert!(given == Outcome { answer, ..before });
    }
    answer
}

/// A read of one line, over the buffers of this call.
fn one_line(call: &mut Call) -> One {
    let work = Out {
        lines: &mut call.out,
        marks: &mut call.marks,
        row_table: &mut call.row_out,
        column_table: &mut call.column_out,
    };
    read_one(
        call.rows,
        call.columns,
        &call.lines,
        &call.row_table,
        &call.column_table,
        call.n,
        work,
        &mut call.line_out,
    )
}

/// Flips these places of the nth line in a buffer.
fn hurt(lines: &mut [u8], n: usize, places: &[usize]) {
    flip(&mut lines[n * LINE_BYTES..], places);
}

#[test]
fn refusals_from_8_on_in_checking_order() {
    let mut call = call_of(2, 3);
    assert_eq!(answers(&call), [0, 0, 0]);

    // Line 1 is faulty: 10, and repair mends it.
    hurt(&mut call.lines, 1, &[0, 1]);
    assert_eq!(answers(&call), [10, 10, 0]);
    // Another line is faulty: a change doesn't look at it.
    let mut other = call_of(2, 3);
    hurt(&mut other.lines, 2, &[0, 1]);
    assert_eq!(answers(&other), [10, 0, 0]);

    // The parity line of the column isn't correct: 14 before 10. Repair takes
    // what it can.
    hurt(&mut call.column_table, 1, &[0]);
    assert_eq!(answers(&call), [10, 14, 0]);
    // That of the row too: 13 before 14. Faulty, both leave line 1 alone.
    hurt(&mut call.row_table, 0, &[543]);
    assert_eq!(answers(&call), [10, 13, 0]);
    hurt(&mut call.row_table, 0, &[7]);
    assert_eq!(answers(&call), [10, 13, 0]);
    hurt(&mut call.column_table, 1, &[7]);
    assert_eq!(answers(&call), [10, 13, 11]);
    // Other parity lines: a change checks only its two.
    hurt(&mut other.column_table, 0, &[0]);
    hurt(&mut other.row_table, 1, &[0]);
    assert_eq!(answers(&other), [10, 0, 0]);

    // The line number: 8 before 13.
    for n in [6, usize::MAX] {
        call.n = n;
        assert_eq!(answers(&call), [10, 8, 11]);
    }
}

#[test]
fn refusals_7_in_checking_order() {
    let mut call = call_of(2, 3);
    hurt(&mut call.lines, 1, &[0, 1]);
    call.n = 6;
    // Other buffers: 7 before 8.
    for length in [0, 63, 65] {
        call.data = vec![0; length];
        assert_eq!(answers(&call), [10, 7, 0]);
    }
    for length in [0, 419, 421] {
        call.out = vec![FILLING; length];
        assert_eq!(answers(&call), [10, 7, 7]);
    }
    call.out = vec![FILLING; 420];
    for length in [0, 5, 7] {
        call.marks = vec![FILLING; length];
        assert_eq!(answers(&call), [10, 7, 7]);
    }
}

#[test]
fn refusals_up_to_6_in_checking_order() {
    let mut call = call_of(2, 3);
    call.data.clear();
    call.marks.clear();
    // Tables that repair alone writes: 6 before 7. Then those of all three.
    for length in [0, 139, 141, 210] {
        let mut table = call.clone();
        table.row_out = vec![FILLING; length];
        assert_eq!(answers(&table), [0, 7, 6]);
        table = call.clone();
        table.row_table = vec![0; length];
        assert_eq!(answers(&table), [6, 6, 6]);
    }
    for length in [0, 209, 211, 140] {
        let mut table = call.clone();
        table.column_out = vec![FILLING; length];
        assert_eq!(answers(&table), [0, 7, 6]);
        table = call.clone();
        table.column_table = vec![0; length];
        assert_eq!(answers(&table), [6, 6, 6]);
    }
    call.column_table.clear();

    // Lines: 5 before 6.
    for length in [0, 419, 421] {
        call.lines = vec![0; length];
        assert_eq!(answers(&call), [5, 5, 5]);
    }

    // Sides: 2 before 5.
    for (rows, columns) in [(1, 3), (2, 1), (0, 0), (513, 3), (2, 513), (usize::MAX, 2)] {
        (call.rows, call.columns) = (rows, columns);
        assert_eq!(answers(&call), [2, 2, 2]);
    }
}

#[test]
fn spare_bits_of_parity_lines_are_no_fault() {
    let mut random = Random::new(9);
    let written = Store::random(&mut random, 3, 3);
    let mut store = written.clone();
    draw::set_spare_bits(&mut random, &mut store.row_table, 1);
    draw::set_spare_bits(&mut random, &mut store.column_table, 1);
    draw::set_spare_bits(&mut random, &mut store.lines, 1);
    store.hurt(4, &[0, 1]);
    let outcome = store.repaired(FILLING);
    assert_eq!((outcome.answer, outcome.passes), (0, 1));
    assert_eq!(outcome.lines, written.lines);
    assert_eq!(outcome.row_table, written.row_table);
    assert_eq!(outcome.column_table, written.column_table);
    assert_eq!(outcome.marks, [0, 0, 0, 0, 3, 0, 0, 0, 0]);
}

#[test]
fn change_equals_tables_made_anew() {
    let mut random = Random::new(10);
    for _ in 0..300 {
        let (rows, columns) = draw::sides(&mut random, 6);
        let mut store = Store::random(&mut random, rows, columns);
        // Every line may lose a bit and still read alone.
        draw::hurt(&mut random, &mut store, draw::Damage::Singles);
        draw::set_spare_bits(&mut random, &mut store.lines, 2);
        draw::set_spare_bits(&mut random, &mut store.row_table, 2);
        draw::set_spare_bits(&mut random, &mut store.column_table, 2);
        let before = store.clone();
        let n = random.below(store.count());
        let mut data = [0; 64];
        random.fill(&mut data);
        let given = change_line(
            rows,
            columns,
            &mut store.lines,
            &mut store.row_table,
            &mut store.column_table,
            n,
            &data,
        );
        assert_eq!(
            given,
            Change {
                answer: 0,
                number: 0
            }
        );

        let mut line = [0; LINE_BYTES];
        write_line(&data, &mut line);
        let mut lines = before.lines.clone();
        lines[n * LINE_BYTES..][..LINE_BYTES].copy_from_slice(&line);
        assert_eq!(store.lines, lines);

        let mut anew = store.clone();
        assert_eq!(anew.tables_anew(), 0);
        assert!(draw::same_places(&store.row_table, &anew.row_table));
        assert!(draw::same_places(&store.column_table, &anew.column_table));
        // Only the two parity lines changed; they have spare bits 0.
        let tables = [
            (
                &before.row_table,
                &store.row_table,
                &anew.row_table,
                n / columns,
            ),
            (
                &before.column_table,
                &store.column_table,
                &anew.column_table,
                n % columns,
            ),
        ];
        for (before, after, anew, changed) in tables {
            for i in 0..before.len() / LINE_BYTES {
                let bytes = i * LINE_BYTES..(i + 1) * LINE_BYTES;
                let expected = if i == changed { anew } else { before };
                assert_eq!(after[bytes.clone()], expected[bytes]);
            }
        }
    }
}

#[test]
fn eleven_and_twelve_write_lines_marks_and_tables() {
    // 11: one line mended alone, the ring left as found, spare bits 0.
    let mut store = Store::zero(3, 3);
    for n in [0, 1, 3, 4] {
        store.hurt(n, &[0, 1]);
    }
    store.hurt(8, &[5]);
    let mut expected = store.clone();
    expected.hurt(8, &[5]);
    draw::set_spare_bits(&mut Random::new(1), &mut store.lines, 1);
    let outcome = store.repaired(FILLING);
    assert_eq!((outcome.answer, outcome.passes), (11, 1));
    assert_eq!(outcome.marks, [4, 4, 0, 4, 4, 0, 0, 0, 1]);
    assert_eq!(outcome.lines, expected.lines);
    assert_eq!(outcome.row_table, expected.row_table);
    assert_eq!(outcome.column_table, expected.column_table);

    // 12: a parity line is another correct line.
    let mut store = Store::zero(2, 2);
    let mut data = [0; 64];
    data[63] = 0x80;
    write_line(&data, &mut store.column_table[LINE_BYTES..]);
    store.hurt(0, &[5]);
    let outcome = store.repaired(FILLING);
    assert_eq!((outcome.answer, outcome.passes), (12, 0));
    assert_eq!(outcome.marks, [1, 0, 0, 0]);
    assert_eq!(outcome.lines, [0; 4 * LINE_BYTES]);
    assert_eq!(outcome.row_table, store.row_table);
    assert_eq!(outcome.column_table, store.column_table);
}

#[test]
fn file_header_refusals() {
    let store = Store::random(&mut Random::new(2), 3, 2);
    let file = store.file();
    let checked = check_file(&file);
    assert_eq!((checked.answer, checked.rows, checked.columns), (0, 3, 2));
    assert_eq!(file[checked.lines.clone()], store.lines);
    assert_eq!(file[checked.row_table.clone()], store.row_table);
    assert_eq!(file[checked.column_table.clone()], store.column_table);
    assert_eq!(checked.lines.start, 28);
    assert_eq!(checked.column_table.end, file.len());

    // Any other value of any contents byte is 4.
    for at in 4..file::HEADER_BYTES {
        for value in 0..=255 {
            let mut spoilt = file.clone();
            spoilt[at] = value;
            let expected = if value == file[at] { 0 } else { 4 };
            assert_eq!(check_file(&spoilt).answer, expected);
        }
    }
    // So is any other length from 28 up, and 1 below.
    for length in 0..file.len() + 100 {
        let mut spoilt = file.clone();
        spoilt.resize(length, 0);
        let expected = match length {
            0..28 => 1,
            _ if length == file.len() => 0,
            _ => 4,
        };
        let checked = check_file(&spoilt);
        assert_eq!(checked.answer, expected);
        if expected != 0 {
            assert_eq!((checked.rows, checked.columns), (0, 0));
            assert_eq!(storecheck(&spoilt), format!("answer {expected}\n"));
        }
    }
    // Sides decide before the contents.
    for side in [0u16, 1, 513, 65535] {
        for at in [0, 2] {
            let mut spoilt = file.clone();
            spoilt[at..at + 2].copy_from_slice(&side.to_le_bytes());
            assert_eq!(check_file(&spoilt).answer, 2);
            assert_eq!(storecheck(&spoilt), "answer 2\n");
        }
    }
}

#[test]
fn reports_of_answers_11_and_12() {
    let mut store = Store::zero(2, 2);
    (0..4).for_each(|n| store.hurt(n, &[0, 1]));
    let left = "store 2 2\nclean 0\nalone 0\ntrial 0\nrebuilt 0\nfaulty 4\npasses 1\nanswer 11\n";
    assert_eq!(storecheck(&store.file()), left);

    let mut store = Store::zero(2, 2);
    store
        .line_mut(3)
        .copy_from_slice(&draw::correct_line(&mut Random::new(0)));
    store.hurt(0, &[9]);
    let differs =
        "store 2 2\nclean 3\nalone 1\ntrial 0\nrebuilt 0\nfaulty 0\npasses 0\nanswer 12\n";
    assert_eq!(storecheck(&store.file()), differs);
}

#[test]
fn drawn_calls_reach_every_refusal() {
    let mut random = Random::new(11);
    // For writing, reading, tables, changing, repairing and one line wanted.
    let mut answers = [[0usize; 15]; 6];
    for _ in 0..20_000 {
        let mut call = draw::call(&mut random, 3);
        if random.once_in(8) {
            random.fill(&mut call.lines);
        }
        let before = call.clone();
        let (rows, columns) = (call.rows, call.columns);
        let mut count = |entry: usize, answer: u32| {
            answers[entry][answer as usize] += 1;
            ![0, 11, 12].contains(&answer)
        };

        if count(0, write_line(&call.data, &mut call.line_out)) {
            assert_eq!(call, before);
        }
        call.line_out.clone_from(&before.line_out);
        let read = read_line(&call.line, &mut call.line_out);
        if count(1, read.answer) && read.answer != 10 {
            assert_eq!(read.mark, 0);
            assert_eq!(call, before);
        }
        call.line_out.clone_from(&before.line_out);
        count(4, repaired(&call));
        let one = one_line(&mut call);
        if count(5, one.answer) {
            assert_eq!((one.mark, one.step), (0, 0));
            assert_eq!(call, before);
        }
        call.clone_from(&before);
        let changed = change_line(
            rows,
            columns,
            &mut call.lines,
            &mut call.row_table,
            &mut call.column_table,
            call.n,
            &call.data,
        );
        if count(3, changed.answer) {
            assert_eq!(call, before);
        }
        call.clone_from(&before);
        let made = make_tables(
            rows,
            columns,
            &call.lines,
            &mut call.row_table,
            &mut call.column_table,
        );
        if count(2, made) {
            assert_eq!(call, before);
        }
    }
    let due: [&[usize]; 6] = [
        &[0, 7],
        &[0, 5, 7, 10],
        &[0, 2, 5, 6, 10],
        &[0, 2, 5, 6, 7, 8, 10, 13, 14],
        &[0, 2, 5, 6, 7, 11, 12],
        &[0, 2, 5, 6, 7, 8, 11],
    ];
    for (entry, counts) in answers.iter().enumerate() {
        println!("{counts:?}");
        for (answer, &count) in counts.iter().enumerate() {
            let is_due = due[entry].contains(&answer);
            assert_eq!(
                count > 20,
                is_due,
                "entry {entry}, answer {answer}: {count}"
            );
            assert!(is_due || count == 0);
        }
    }
}

#[test]
fn any_bytes_are_taken_as_a_file() {
    let mut random = Random::new(16);
    let mut stores = 0;
    for _ in 0..5000 {
        let mut bytes = vec![0; random.below(600)];
        random.fill(&mut bytes);
        let with_header = random.once_in(2) && bytes.len() >= 28;
        if with_header {
            bytes[..28].copy_from_slice(&file::header(2, 2));
        }
        assert_ne!(check_file(&bytes).answer, 3);
        let report = storecheck(&bytes);
        if with_header && bytes.len() == 588 {
            // No line and no parity line of such bytes reads alone.
            let lost =
                "store 2 2\nclean 0\nalone 0\ntrial 0\nrebuilt 0\nfaulty 4\npasses 1\nanswer 11\n";
            assert_eq!(report, lost);
            stores += 1;
        } else {
            assert!(report.starts_with("answer "));
        }
    }
    assert!(stores > 0);
}
