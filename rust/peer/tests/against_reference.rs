//! The peer against the reference, byte for byte, on drawn inputs.

mod given;

use reference::draw::{self, Damage, Store};
use reference::random::Random;
use reference::{LINE_BYTES, PLACES};

const FILLING: u8 = 0xC3;

fn same_repair(store: &Store) -> u32 {
    let expected = store.repaired(FILLING);
    let given = given::repair(&draw::call_on(&mut Random::new(0), store.clone()));
    assert_eq!(
        (given.answer, given.passes),
        (expected.answer, expected.passes)
    );
    assert_eq!(given.marks, expected.marks);
    assert!(given == expected, "other lines or tables");
    given.answer
}

fn same_tables(store: &Store) -> u32 {
    let mut expected = store.clone();
    expected.row_table.fill(FILLING);
    expected.column_table.fill(FILLING);
    let mut given = expected.clone();
    let answer = expected.tables_anew();
    let same = peer::make_tables(
        given.rows,
        given.columns,
        &given.lines,
        &mut given.row_table,
        &mut given.column_table,
    );
    assert_eq!(same, answer);
    assert!(given == expected);
    answer
}

fn same_reading(line: &[u8]) -> u8 {
    let mut expected = [FILLING; LINE_BYTES];
    let reference = reference::read_line(line, &mut expected);
    let mut out = [FILLING; LINE_BYTES];
    let given = peer::read_line(line, &mut out);
    assert_eq!(
        (given.answer, given.mark),
        (reference.answer, reference.mark)
    );
    assert_eq!(out, expected);
    given.mark
}

#[test]
fn write_line_agrees() {
    let mut random = Random::new(1);
    let check = |data: &[u8]| {
        let (mut expected, mut out) = ([FILLING; LINE_BYTES], [FILLING; LINE_BYTES]);
        assert_eq!(reference::write_line(data, &mut expected), 0);
        assert_eq!(peer::write_line(data, &mut out), 0);
        assert_eq!(out, expected);
    };
    for place in 0..512 {
        let mut data = [0; 64];
        draw::flip(&mut data, &[place]);
        check(&data);
    }
    for _ in 0..20_000 {
        let mut data = [0; 64];
        random.fill(&mut data);
        check(&data);
    }
}

#[test]
fn read_line_agrees() {
    let mut random = Random::new(2);
    let mut marks = [0usize; 5];
    for case in 0..30_000 {
        let mut line = draw::correct_line(&mut random);
        if case % 16 == 0 {
            random.fill(&mut line);
        }
        let count = case % 6;
        draw::flip(&mut line, &draw::places(&mut random, count));
        draw::set_spare_bits(&mut random, &mut line, 3);
        marks[usize::from(same_reading(&line))] += 1;
    }
    for mark in [0, 1, 4] {
        assert!(marks[mark] > 1000);
    }
    // Every single place of a line, and any of its Hamming bits.
    let line = draw::correct_line(&mut random);
    for place in 0..PLACES {
        let mut hurt = line;
        draw::flip(&mut hurt, &[place]);
        assert_eq!(same_reading(&hurt), 1);
    }
    for _ in 0..2_000 {
        let mut hurt = line;
        draw::flip(&mut hurt, &draw::hamming_places(&mut random));
        assert_eq!(same_reading(&hurt), 1);
    }
}

#[test]
fn make_tables_agrees() {
    let mut random = Random::new(3);
    let mut answers = [0usize; 11];
    for _ in 0..2000 {
        let mut store = draw::hurt_store(&mut random, 6);
        if random.once_in(2) {
            store = Store::random(&mut random, store.rows, store.columns);
            draw::hurt(&mut random, &mut store, Damage::Singles);
        }
        answers[same_tables(&store) as usize] += 1;
    }
    assert!(answers[0] > 100 && answers[10] > 100);
}

#[test]
fn repair_agrees() {
    let mut random = Random::new(4);
    let mut answers = [0usize; 15];
    for _ in 0..12_000 {
        let store = draw::hurt_store(&mut random, 8);
        answers[same_repair(&store) as usize] += 1;
    }
    for (answer, count) in answers.into_iter().enumerate() {
        let given = [0, 11, 12].contains(&answer);
        assert!(if given { count > 100 } else { count == 0 });
    }
}

#[test]
fn repair_agrees_on_every_damage() {
    let mut random = Random::new(5);
    for way in Damage::ALL {
        for case in 0..150 {
            let (rows, columns) = draw::sides(&mut random, 4 + case % 12);
            let mut store = Store::random(&mut random, rows, columns);
            draw::hurt(&mut random, &mut store, way);
            same_repair(&store);
        }
    }
}

#[test]
fn repair_agrees_on_orders_of_demand_3() {
    let mut random = Random::new(6);
    for _ in 0..1500 {
        let (rows, columns) = draw::sides(&mut random, 9);
        let drawn = draw::ordered(&mut random, rows, columns, rows + columns);
        assert_eq!(same_repair(&drawn.hurt), 0);
    }
}

#[test]
fn repair_agrees_on_long_and_wide_stores() {
    let mut random = Random::new(7);
    for (rows, columns) in [(2, 512), (512, 2), (40, 40), (3, 200)] {
        for way in [Damage::Both, Damage::OpenChain, Damage::Scattered] {
            let mut store = Store::random(&mut random, rows, columns);
            draw::hurt(&mut random, &mut store, way);
            same_repair(&store);
            same_tables(&store);
        }
    }
    same_repair(&draw::staircase(&mut random, 50));
}

#[test]
fn repair_agrees_on_the_greatest_store() {
    let mut random = Random::new(8);
    let mut store = Store::random(&mut random, 512, 512);
    same_tables(&store);
    draw::hurt(&mut random, &mut store, Damage::Singles);
    for _ in 0..20 {
        draw::hurt(&mut random, &mut store, Damage::Crowded);
        draw::hurt(&mut random, &mut store, Damage::NearSix);
    }
    same_repair(&store);
    for group in (0..512).step_by(3) {
        store.hurt_row_parity(group, &[draw::place(&mut random)]);
        store.hurt_column_parity(group, &draw::places(&mut random, 2));
    }
    same_repair(&store);
}

#[test]
fn refusals_agree() {
    let mut random = Random::new(9);
    let mut answers = [0usize; 15];
    for _ in 0..20_000 {
        let call = draw::call(&mut random, 3);
        let (rows, columns) = (call.rows, call.columns);

        let (mut a, mut b) = (call.line_out.clone(), call.line_out.clone());
        let expected = reference::write_line(&call.data, &mut a);
        assert_eq!(peer::write_line(&call.data, &mut b), expected);
        assert_eq!(a, b);

        let (mut a, mut b) = (call.line_out.clone(), call.line_out.clone());
        let expected = reference::read_line(&call.line, &mut a);
        let given = peer::read_line(&call.line, &mut b);
        assert_eq!((given.answer, given.mark), (expected.answer, expected.mark));
        assert_eq!(a, b);

        let (mut a, mut b) = (call.clone(), call.clone());
        let (row, column) = (&mut a.row_table, &mut a.column_table);
        let expected = reference::make_tables(rows, columns, &call.lines, row, column);
        let (row, column) = (&mut b.row_table, &mut b.column_table);
        let given = peer::make_tables(rows, columns, &call.lines, row, column);
        assert_eq!(given, expected);
        assert_eq!(a, b);

        let given = given::repair(&call);
        assert_eq!(given, call.repaired());
        answers[given.answer as usize] += 1;
    }
    for (answer, count) in answers.into_iter().enumerate() {
        let given = [0, 2, 5, 6, 7, 11, 12].contains(&answer);
        let fits = if given { count > 10 } else { count == 0 };
        assert!(fits, "answer {answer}: {count}");
    }
}
