//! The library against the second implementation on drawn inputs: every entry
//! point, every refusal, damage at random and with malice.
//!
//! Each comparison is over buffers between guard bytes, and a refusal must
//! leave every buffer as it was (`library_tests::compare`).

use std::collections::BTreeMap;

use library_tests::{Entry, Numbers, as_many_as_usual, cases, compare, seed, watched};
use reference::PLACES;
use reference::draw::{self, Call, Damage, Store, call_on};
use reference::random::Random;

/// How often each entry point gave each answer, with a number of a row or
/// column that isn't 0 and without.
#[derive(Default)]
struct Tally(BTreeMap<(Entry, u32), [usize; 2]>);

impl Tally {
    /// Compares one call and counts it.
    fn compare(&mut self, entry: Entry, call: &Call, random: &mut Random) -> u32 {
        let Numbers { answer, number, .. } = compare(entry, call, random.below(16));
        self.0.entry((entry, answer)).or_default()[usize::from(number != 0)] += 1;
        answer
    }

    /// How often this entry point gave this answer: with number 0, and with
    /// another.
    fn count(&self, entry: Entry, answer: u32) -> [usize; 2] {
        self.0.get(&(entry, answer)).copied().unwrap_or_default()
    }

    /// Prints the count of cases, and how often each answer came up.
    fn print(&self, name: &str) {
        let total: usize = self.0.values().flatten().sum();
        println!("differential, {name}: {total} cases");
        for entry in Entry::ALL {
            let mut answers: Vec<String> = vec![];
            for &answer in entry.answers() {
                match self.count(entry, answer) {
                    [0, 0] => {}
                    [count, 0] => answers.push(format!("{answer}: {count}")),
                    [zero, other] => {
                        let count = zero + other;
                        answers.push(format!(
                            "{answer}: {count} ({other} not of row or column 0)"
                        ));
                    }
                }
            }
            if !answers.is_empty() {
                println!("    {entry:?} answers {}", answers.join(", "));
            }
        }
    }

    /// Every answer that an entry point may give came up.
    fn expect_all_answers(&self) {
        for entry in Entry::ALL {
            for &answer in entry.answers() {
                let seen = self.0.contains_key(&(entry, answer));
                assert!(seen, "{entry:?} never answered {answer}");
            }
        }
    }

    /// Changes met bad rows and bad columns, the first of each and others.
    fn expect_bad_parity(&self) {
        for answer in [13, 14] {
            let [zero, other] = self.count(Entry::Change, answer);
            assert!(
                zero > 0 && other > 0,
                "answer {answer}: {zero} of row or column 0, {other} of others"
            );
        }
    }
}

/// Compares what tables, change, repair and a read of one line give for this
/// store.
fn compare_all(tally: &mut Tally, random: &mut Random, store: &Store) {
    let call = call_on(random, store.clone());
    for entry in [Entry::Tables, Entry::Change, Entry::Repair, Entry::One] {
        tally.compare(entry, &call, random);
    }
}

#[test]
fn drawn_calls_agree() {
    let mut random = Random::new(seed());
    let mut tally = Tally::default();
    for case in 0..cases(50_000) {
        let most = if case % 50 == 0 { 12 } else { 4 };
        let call = draw::call(&mut random, most);
        for entry in Entry::ALL {
            tally.compare(entry, &call, &mut random);
        }
    }
    tally.print("drawn calls");
    if !watched() {
        tally.expect_all_answers();
    }
    if as_many_as_usual() {
        tally.expect_bad_parity();
    }
}

#[test]
fn every_damage_agrees() {
    let mut random = Random::new(seed());
    let mut tally = Tally::default();
    for case in 0..cases(1_200) {
        for way in Damage::ALL {
            let (rows, columns) = draw::sides(&mut random, 3 + case % 8);
            let mut store = Store::random(&mut random, rows, columns);
            draw::hurt(&mut random, &mut store, way);
            if random.once_in(4) {
                draw::set_spare_bits(&mut random, &mut store.lines, 2);
                draw::set_spare_bits(&mut random, &mut store.row_table, 3);
                draw::set_spare_bits(&mut random, &mut store.column_table, 3);
            }
            compare_all(&mut tally, &mut random, &store);
        }
    }
    tally.print("every damage");
    if as_many_as_usual() {
        tally.expect_bad_parity();
    }
}

#[test]
fn single_lines_agree() {
    let mut random = Random::new(seed());
    let mut tally = Tally::default();
    let mut call = call_on(&mut random, Store::zero(2, 2));
    for case in 0..cases(120_000) {
        if case % 3 == 0 {
            random.fill(&mut call.data);
            random.fill(&mut call.line_out);
            tally.compare(Entry::Write, &call, &mut random);
            continue;
        }
        // A line hurt at few places or in Hamming bits alone, or any bytes, or
        // a foreign syndrome.
        call.line = draw::correct_line(&mut random).to_vec();
        let hurt = random.below(9);
        let places = if random.once_in(6) {
            draw::hamming_places(&mut random)
        } else {
            draw::places(&mut random, hurt)
        };
        draw::flip(&mut call.line, &places);
        if random.once_in(3) {
            draw::set_spare_bits(&mut random, &mut call.line, 1);
        }
        if random.once_in(10) {
            random.fill(&mut call.line);
        }
        tally.compare(Entry::Read, &call, &mut random);
    }
    tally.print("single lines");
}

#[test]
fn every_data_place_and_every_single_flip_agree() {
    let mut random = Random::new(seed());
    let mut tally = Tally::default();
    let mut call = call_on(&mut random, Store::zero(2, 2));
    for place in 0..512 {
        call.data = vec![0; 64];
        draw::flip(&mut call.data, &[place]);
        tally.compare(Entry::Write, &call, &mut random);
    }
    let line = draw::correct_line(&mut random);
    for place in 0..PLACES {
        call.line = line.to_vec();
        draw::flip(&mut call.line, &[place]);
        tally.compare(Entry::Read, &call, &mut random);
    }
    tally.print("single places");
}

#[test]
fn changes_keep_the_tables() {
    let mut random = Random::new(seed());
    let mut tally = Tally::default();
    for _ in 0..cases(200) {
        let (rows, columns) = draw::sides(&mut random, 6);
        let mut store = Store::random(&mut random, rows, columns);
        for _ in 0..12 {
            // A line with one damaged bit still reads alone and may be
            // changed; the others are whole.
            let mut hurt = store.clone();
            let n = random.below(store.count());
            hurt.hurt(n, &[draw::place(&mut random)]);
            let call = call_on(&mut random, hurt);
            assert_eq!(tally.compare(Entry::Change, &call, &mut random), 0);
            let (of_rows, of_columns) = (&mut store.row_table, &mut store.column_table);
            let given = sudoku::c::change_line(
                rows,
                columns,
                &mut store.lines,
                of_rows,
                of_columns,
                call.n,
                &call.data,
            );
            assert_eq!(given, (0, 0));
            let mut anew = store.clone();
            assert_eq!(anew.tables_anew(), 0);
            assert!(anew == store, "not the tables made anew");
        }
    }
    tally.print("changes");
}

#[test]
fn chains_agree() {
    let mut random = Random::new(seed());
    let mut tally = Tally::default();
    for side in [2, 3, 5, 8, 16, 33, 64] {
        if watched() && side > 8 {
            break;
        }
        let store = draw::staircase(&mut random, side);
        let call = call_on(&mut random, store);
        assert_eq!(tally.compare(Entry::Repair, &call, &mut random), 0);
    }
    tally.print("chains");
}

#[test]
fn sides_2_and_512_agree() {
    let mut random = Random::new(seed());
    let mut tally = Tally::default();
    let sides: &[(usize, usize)] = if watched() {
        &[(2, 2), (2, 9), (9, 2)]
    } else {
        &[(2, 2), (2, 512), (512, 2), (512, 512)]
    };
    for &(rows, columns) in sides {
        let mut store = Store::zero(rows, columns);
        for _ in 0..store.count().div_ceil(100) {
            let n = random.below(store.count());
            store
                .line_mut(n)
                .copy_from_slice(&draw::correct_line(&mut random));
        }
        store.tables_anew();
        for n in (0..store.count()).step_by(97) {
            store.hurt(n, &[draw::place(&mut random)]);
        }
        compare_all(&mut tally, &mut random, &store);
        for way in [
            Damage::Crowded,
            Damage::OpenChain,
            Damage::NearForeign,
            Damage::NearSix,
        ] {
            draw::hurt(&mut random, &mut store, way);
        }
        compare_all(&mut tally, &mut random, &store);
        // And with parity lines hurt: the last ones past reading.
        store.hurt_row_parity(rows - 1, &[0, 1]);
        store.hurt_column_parity(columns - 1, &[0, 1]);
        compare_all(&mut tally, &mut random, &store);
        draw::hurt(&mut random, &mut store, Damage::ParityGone);
        compare_all(&mut tally, &mut random, &store);
    }
    tally.print("sides 2 and 512");
}
