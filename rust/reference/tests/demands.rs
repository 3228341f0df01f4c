//! Demand 3 as a property, laws of repair, and all pairs of places.

use std::collections::HashMap;

use reference::draw::{self, Damage, Outcome, Store};
use reference::line::{self, places};
use reference::random::Random;
use reference::{LINE_BYTES, PLACES, PROTECTED_PLACES, polynomial, read_line, write_line};

/// Repair gave 0 and exactly the rectangle written, lines and both tables.
fn expect_written(outcome: &Outcome, written: &Store, case: usize) {
    assert_eq!(outcome.answer, 0, "case {case}");
    assert_eq!(outcome.lines, written.lines, "case {case}");
    assert_eq!(outcome.row_table, written.row_table, "case {case}");
    assert_eq!(outcome.column_table, written.column_table, "case {case}");
}

#[test]
fn demand_3_returns_exactly_the_rectangle_written() {
    let mut random = Random::new(3);
    let mut marks = [0usize; 5];
    let mut longest = 0;
    let mut most_passes = 0;
    let mut parity_hurt = 0;
    for case in 0..4000 {
        let (rows, columns) = draw::sides(&mut random, 2 + case % 9);
        let wanted = random.below(2 * (rows + columns));
        let drawn = draw::ordered(&mut random, rows, columns, wanted);
        assert!(draw::order_fits(&drawn.written, &drawn.hurt, &drawn.order));

        let outcome = drawn.hurt.repaired(0x5A);
        expect_written(&outcome, &drawn.written, case);
        assert!(outcome.passes as usize <= drawn.order.len());
        let whole = draw::same_places(&drawn.hurt.row_table, &drawn.written.row_table);
        parity_hurt += usize::from(!whole);
        for mark in outcome.marks {
            marks[usize::from(mark)] += 1;
        }
        longest = longest.max(drawn.order.len());
        most_passes = most_passes.max(outcome.passes);
    }
    println!(
        "marks {marks:?}, longest order {longest}, most passes {most_passes}, \
         row tables hurt {parity_hurt}"
    );
    assert!(marks[..4].iter().all(|&count| count > 1000));
    assert_eq!(marks[4], 0);
    assert!(longest > 12 && most_passes > 2 && parity_hurt > 500);
}

#[test]
fn demand_3_on_staircases_with_trials() {
    // A closed staircase of two-bit lines: nothing opens but by trial.
    let mut random = Random::new(33);
    for side in 2..12 {
        let written = Store::random(&mut random, side, side);
        let mut hurt = written.clone();
        let mut order = Vec::new();
        for i in 0..side {
            for j in 0..2 {
                let n = i * side + (i + j) % side;
                hurt.hurt(n, &[2 * i, 2 * i + 1 + j]);
                order.push(n);
            }
        }
        assert!(draw::order_fits(&written, &hurt, &order));
        let outcome = hurt.repaired(0);
        expect_written(&outcome, &written, side);
        assert_eq!(outcome.passes, 1);
    }
}

#[test]
fn order_fits_refuses_what_demand_3_does_not_allow() {
    let written = Store::random(&mut Random::new(5), 2, 2);
    let hurt = |damage: &[(usize, &[usize])]| {
        let mut hurt = written.clone();
        for (n, places) in damage {
            hurt.hurt(*n, places);
        }
        hurt
    };
    let fits = |hurt: &Store, order: &[usize]| draw::order_fits(&written, hurt, order);
    assert!(fits(&hurt(&[]), &[]));
    assert!(fits(&hurt(&[(0, &[4])]), &[]));
    assert!(!fits(&hurt(&[(0, &[4])]), &[0]));
    assert!(fits(&hurt(&[(0, &[1, 2, 3, 4, 5])]), &[0]));
    assert!(!fits(&hurt(&[(0, &[1, 2, 3, 4, 5, 6])]), &[0]));
    assert!(!fits(&hurt(&[(0, &[1, 2])]), &[]));
    assert!(!fits(&hurt(&[(0, &[1, 2])]), &[0, 0]));
    // Four lines: the first needs two bits and a partner with at most four,
    // not hurt at both.
    let ring = |first: &[usize], partner: &[usize]| {
        hurt(&[
            (0, first),
            (1, partner),
            (2, &[1, 2, 3, 4, 5]),
            (3, &[1, 2, 3]),
        ])
    };
    assert!(fits(&ring(&[1, 2], &[1, 3, 4, 5]), &[0, 1, 2, 3]));
    assert!(!fits(&ring(&[1, 2], &[1, 2, 4, 5]), &[0, 1, 2, 3]));
    assert!(!fits(&ring(&[1, 2], &[1, 3, 4, 5, 6]), &[0, 1, 2, 3]));
    assert!(!fits(&ring(&[1, 2, 3], &[4, 5]), &[0, 1, 2, 3]));
    assert!(fits(&ring(&[1, 2, 3], &[4, 5]), &[1, 0, 2, 3]));
}

#[test]
fn order_fits_counts_groups_by_their_parity_lines() {
    let written = Store::random(&mut Random::new(6), 2, 2);
    let fits = |hurt: &Store, order: &[usize]| draw::order_fits(&written, hurt, order);
    // Any parity line may have five damaged bits; spare bits don't count.
    let mut tables = written.clone();
    tables.row_table[69] |= 0xFC;
    tables.hurt_row_parity(0, &[1, 2, 3, 4, 5]);
    tables.hurt_column_parity(0, &[543, 544, 545, 546, 547]);
    assert!(fits(&tables, &[]));
    let mut six = tables.clone();
    six.hurt_row_parity(0, &[6]);
    assert!(!fits(&six, &[]));
    six = tables.clone();
    six.hurt_column_parity(0, &[6]);
    assert!(!fits(&six, &[]));
    // Row 0 and column 0 don't count: line 0 has no group, line 1 its column,
    // line 2 its row, line 3 both.
    for (n, allowed) in [(0, false), (1, true), (2, true), (3, true)] {
        let mut hurt = tables.clone();
        hurt.hurt(n, &[1, 2]);
        assert_eq!(fits(&hurt, &[n]), allowed, "line {n}");
    }
}

#[test]
fn order_fits_counts_groups_with_one_damaged_parity_bit() {
    let written = Store::random(&mut Random::new(7), 2, 2);
    let fits = |hurt: &Store, order: &[usize]| draw::order_fits(&written, hurt, order);
    let mut one = written.clone();
    one.hurt_row_parity(0, &[1]);
    one.hurt_column_parity(0, &[1, 2]);
    one.hurt(0, &[1, 2]);
    assert!(fits(&one, &[0]));
    one.hurt_row_parity(0, &[2]);
    assert!(!fits(&one, &[0]));
    // Four lines that come by trial: by their columns where no row counts, and
    // lines 0 and 2 not at all where column 0 doesn't count either.
    let mut pair = written.clone();
    for (n, places) in [(0, [1, 2]), (1, [3, 4]), (2, [5, 6]), (3, [7, 8])] {
        pair.hurt(n, &places);
    }
    pair.hurt_row_parity(0, &[1, 2]);
    pair.hurt_row_parity(1, &[1, 2]);
    assert!(fits(&pair, &[0, 1, 2, 3]));
    pair.hurt_column_parity(0, &[1, 2]);
    assert!(!fits(&pair, &[0, 1, 2, 3]));
}

#[test]
fn demand_3_tables_tell_rectangles_apart() {
    // Two rectangles with equal tables that differ in just four lines, each in
    // few bits: the least there is. A word of eight protected places comes
    // from two sets of four places with the same remainder.
    let generator = polynomial::generator();
    let single: Vec<u64> = (0..PROTECTED_PLACES)
        .map(|place| {
            let mut word = vec![false; PROTECTED_PLACES];
            word[place] = true;
            polynomial::to_number(&polynomial::remainder(&word, &generator))
        })
        .collect();
    let mut random = Random::new(8);
    let mut seen: HashMap<u64, Vec<usize>> = HashMap::new();
    let mut words = Vec::new();
    while words.len() < 3 {
        let mut four: Vec<usize> = Vec::new();
        while four.len() < 4 {
            let place = random.below(PROTECTED_PLACES);
            if !four.contains(&place) {
                four.push(place);
            }
        }
        four.sort_unstable();
        let sum = four.iter().fold(0, |sum, &place| sum ^ single[place]);
        if let Some(other) = seen.insert(sum, four.clone()).filter(|o| *o != four) {
            assert!(other.iter().all(|place| !four.contains(place)));
            words.push([four, other].concat());
        }
    }
    for word in words {
        assert_eq!(word.len(), 8);
        let mut bytes = [0; LINE_BYTES];
        draw::flip(&mut bytes, &word);
        let mut change = [0; LINE_BYTES];
        write_line(&bytes[..64], &mut change);
        assert!(change[..67] == bytes[..67] && change[67] == bytes[67]);

        let mut a = Store::random(&mut random, 3, 4);
        let mut b = a.clone();
        for n in [1, 3, 9, 11] {
            for (byte, change) in b.line_mut(n).iter_mut().zip(change) {
                *byte ^= change;
            }
            assert!(draw::differing_places(a.line(n), b.line(n)).len() >= 8);
        }
        assert_eq!((a.tables_anew(), b.tables_anew()), (0, 0));
        assert_eq!((a.row_table, a.column_table), (b.row_table, b.column_table));

        // Seven of the eight places, and Hamming bits that name the eighth:
        // the line reads as the foreign one.
        let mut near = change;
        draw::flip(&mut near, &word[..1]);
        let mut out = [0; LINE_BYTES];
        assert_eq!(read_line(&near, &mut out).mark, 1);
        assert_eq!(out, change);
    }
}

/// Reads one correct line alone with every pair of places hurt.
///
/// Two Hamming bits: the line comes back, with mark 1. Any other pair: the
/// corrector makes three hurt places of two or does nothing, and the line is
/// faulty as found.
fn all_pairs(line: [u8; LINE_BYTES]) {
    let mut count = 0;
    for b in 0..PLACES {
        for a in 0..b {
            let mut found = line;
            draw::flip(&mut found, &[a, b]);
            let mut out = [0xEE; LINE_BYTES];
            let read = read_line(&found, &mut out);
            if a >= PROTECTED_PLACES {
                assert_eq!((read.answer, read.mark, out), (0, 1, line));
            } else {
                assert_eq!((read.answer, read.mark, out), (10, 4, found));
            }
            count += 1;
        }
    }
    assert_eq!(count, 553 * 552 / 2);
}

#[test]
fn all_pairs_of_the_zero_line() {
    all_pairs([0; LINE_BYTES]);
}

#[test]
fn all_pairs_of_a_random_line() {
    let mut data = [0; 64];
    Random::new(2).fill(&mut data);
    let mut line = [0; LINE_BYTES];
    write_line(&data, &mut line);
    all_pairs(line);
}

#[test]
fn all_single_places_come_back() {
    let mut random = Random::new(1);
    for _ in 0..20 {
        let line = draw::correct_line(&mut random);
        for place in 0..PLACES {
            let mut found = line;
            draw::flip(&mut found, &[place]);
            let mut out = [0xEE; LINE_BYTES];
            let read = read_line(&found, &mut out);
            assert_eq!((read.answer, read.mark, out), (0, 1, line));
        }
    }
}

#[test]
fn draws_reach_every_answer_and_mark() {
    let mut random = Random::new(12);
    let mut answers = [0usize; 15];
    let mut marks = [0usize; 5];
    let mut most_passes = 0;
    for _ in 0..6000 {
        let store = draw::hurt_store(&mut random, 8);
        let outcome = store.repaired(0);
        answers[outcome.answer as usize] += 1;
        most_passes = most_passes.max(outcome.passes);
        for &mark in &outcome.marks {
            marks[usize::from(mark)] += 1;
        }
    }
    println!("answers {answers:?}, marks {marks:?}, most passes {most_passes}");
    for (answer, &count) in answers.iter().enumerate() {
        let given = [0, 11, 12].contains(&answer);
        assert!(if given { count > 100 } else { count == 0 });
    }
    assert!(marks.iter().all(|&count| count > 100));
    assert!(most_passes >= 4);
}

#[test]
fn file_draws_reach_every_answer() {
    let mut random = Random::new(14);
    let mut answers = [0usize; 15];
    for _ in 0..3000 {
        let report = reference::storecheck(&draw::store_file(&mut random));
        let last = report.lines().last().unwrap_or("");
        let answer: usize = last.strip_prefix("answer ").unwrap().parse().unwrap();
        answers[answer] += 1;
        let lines = if [0, 11, 12].contains(&answer) { 8 } else { 1 };
        assert_eq!(report.lines().count(), lines);
        assert!(report.ends_with('\n'));
    }
    println!("answers {answers:?}");
    for (answer, &count) in answers.iter().enumerate() {
        let given = [0, 1, 2, 3, 4, 11, 12].contains(&answer);
        assert!(
            if given { count > 10 } else { count == 0 },
            "answer {answer}"
        );
    }
}

#[test]
fn draws_are_the_same_again() {
    let draw = |seed| {
        let random = &mut Random::new(seed);
        let store = draw::hurt_store(random, 9);
        let ordered = draw::ordered(random, 4, 5, 9);
        (store, ordered, draw::store_file(random))
    };
    assert!((0..50).all(|seed| draw(seed) == draw(seed)));
    assert_ne!(draw(0), draw(1));
    // The first numbers of splitmix64 with seed 1234567.
    let mut random = Random::new(1_234_567);
    let numbers = [(); 3].map(|_| random.number());
    let public = [
        6457827717110365317,
        3203168211198807973,
        9817491932198370423,
    ];
    assert_eq!(numbers, public);
}

/// What repair gave for a line of a store, held against its reading alone;
/// gives whether it was faulty at first.
fn check_line(store: &Store, outcome: &Outcome, n: usize) -> bool {
    let mut alone = [0; LINE_BYTES];
    let read = read_line(store.line(n), &mut alone);
    let (mark, out) = (
        outcome.marks[n],
        &outcome.lines[n * LINE_BYTES..][..LINE_BYTES],
    );
    // An accepted line is never altered later.
    if read.mark != 4 {
        assert_eq!((mark, out), (read.mark, &alone[..]));
    } else {
        assert!((2..=4).contains(&mark));
    }
    // What isn't faulty is correct, what is stays as found.
    if mark == 4 {
        assert_eq!(out, alone);
    } else {
        assert!(line::correct(&places(out)));
    }
    read.mark == 4
}

#[test]
fn laws_of_repair() {
    let mut random = Random::new(13);
    for case in 0..3000 {
        let store = draw::hurt_store(&mut random, 7);
        let outcome = store.repaired(0xEE);
        let lines = 0..store.count();
        let faulty = lines.filter(|&n| check_line(&store, &outcome, n)).count();
        assert!(outcome.passes <= faulty as u64);
        assert_eq!(outcome.passes == 0, faulty == 0);
        let left = outcome.marks.contains(&4);
        assert_eq!(left, outcome.answer == 11, "case {case}");
        if left {
            continue;
        }
        // Every parity line written out is a correct line.
        let tables = [&outcome.row_table[..], &outcome.column_table].concat();
        let mut parity = tables.chunks(LINE_BYTES);
        assert!(parity.all(|parity| line::correct(&places(parity))));
        // With 0 they are those of the lines, and repairing again changes
        // nothing; with 12 the next answer is 12 as well.
        let mended = Store {
            lines: outcome.lines.clone(),
            row_table: outcome.row_table.clone(),
            column_table: outcome.column_table.clone(),
            ..store
        };
        let mut anew = mended.clone();
        assert_eq!(anew.tables_anew(), 0);
        assert_eq!(anew == mended, outcome.answer == 0, "case {case}");
        let again = mended.repaired(0);
        let expected = Outcome {
            passes: 0,
            marks: vec![0; mended.count()],
            ..outcome
        };
        assert_eq!(again, expected);
    }
}

#[test]
fn chains_to_a_ring_take_many_passes_and_are_left() {
    let mut random = Random::new(15);
    let mut most_passes = 0;
    for _ in 0..40 {
        let mut store = Store::random(&mut random, 12, 12);
        draw::hurt(&mut random, &mut store, Damage::ChainToRing);
        let outcome = store.repaired(0);
        most_passes = most_passes.max(outcome.passes);
        let left = outcome.marks.iter().filter(|&&mark| mark == 4).count();
        assert!(left == 4 || left == 0);
        assert_eq!(outcome.answer, if left == 0 { 0 } else { 11 });
    }
    assert!(most_passes >= 10);
}
