//! `captions hurt`.

use std::fs;

use reference::draw::{Store, differing_places};
use reference::random::Random;
use reference::{LINE_BYTES, PLACES};

use crate::support::expected::opened;
use crate::support::shows::{drawn, hamlet_store, play};
use crate::support::text::numbers;
use crate::support::{Folder, Ran, captions};
use crate::{cases, seed};

/// What differs between a store's file and its hurt copy.
#[derive(Debug, PartialEq, Eq)]
pub struct Difference {
    /// For each line that differs its number and places.
    pub lines: Vec<(usize, Vec<usize>)>,
    /// The same of the parity lines, those of the rows first.
    pub parity: Vec<(usize, Vec<usize>)>,
}

impl Difference {
    /// The difference, which is in places alone: header, lengths and spare bits
    /// agree.
    pub fn between(before: &[u8], after: &[u8]) -> Difference {
        assert_eq!(before.len(), after.len());
        assert_eq!(before[..28], after[..28], "the header");
        let pairs = before[28..]
            .chunks(LINE_BYTES)
            .zip(after[28..].chunks(LINE_BYTES));
        let places = pairs.map(|(a, b)| differing_places(a, b)).enumerate();
        let mut lines: Vec<(usize, Vec<usize>)> = places.collect();
        let count = opened(before).expect("a store").count();
        let parity = lines.split_off(count).into_iter();
        let parity = parity.map(|(n, places)| (n - count, places));
        let parity = parity.filter(|(_, places)| !places.is_empty()).collect();
        lines.retain(|(_, places)| !places.is_empty());
        let difference = Difference { lines, parity };
        let bits = before.iter().zip(after).map(|(a, b)| (a ^ b).count_ones());
        assert_eq!(bits.sum::<u32>() as usize, difference.bits(), "spare bits");
        difference
    }

    /// How many places differ.
    pub fn bits(&self) -> usize {
        let all = self.lines.iter().chain(&self.parity);
        all.map(|(_, places)| places.len()).sum()
    }
}

fn hurt(folder: &Folder, store: &Store, more: &str) -> Ran {
    folder.write("a.store", store.file());
    let run = captions("hurt a.store -o b.store").words(more);
    run.within(folder.path()).run()
}

/// Hurts a store by the program; gives the difference.
fn hurt_well(folder: &Folder, store: &Store, bits: usize, more: &str) -> Difference {
    let ran = hurt(folder, store, &format!("--bits {bits} {more}"));
    let printed = ran.whole();
    let (before, after) = (folder.read("a.store"), folder.read("b.store"));
    assert_eq!(before, store.file(), "the input stays");
    let difference = Difference::between(&before, &after);
    assert_eq!(difference.bits(), bits);
    let counts = [bits, difference.lines.len(), difference.parity.len()];
    assert_eq!(numbers(&printed), counts.map(|n| n as u64), "{printed}");
    assert_eq!(folder.names(), ["a.store", "b.store"]);
    difference
}

#[test]
fn as_many_bits_as_asked() {
    let folder = Folder::new();
    let store = hamlet_store();
    for bits in [1, 2, 3, 40, 200, 5_000] {
        for more in ["", "--seed 7", "--cluster", "--cluster --seed 8"] {
            hurt_well(&folder, &store, bits, more);
        }
    }
}

#[test]
fn in_words() {
    let folder = Folder::new();
    let ran = hurt(&folder, &hamlet_store(), "--bits 200");
    let difference = Difference::between(&folder.read("a.store"), &folder.read("b.store"));
    let (lines, parity) = (difference.lines.len(), difference.parity.len());
    let expected =
        format!("b.store: 200 bits turned over in {lines} lines and {parity} parity lines\n");
    assert_eq!(ran.whole(), expected);
    assert!(lines > 1 && parity > 1, "200 bits fall into both");
}

#[test]
fn drawn_stores() {
    let mut random = Random::new(seed());
    let folder = Folder::new();
    for i in 0..cases(60) {
        let sides = [(2, 2), (2, 7), (4, 4), (5, 3), (9, 9)][i % 5];
        let store = drawn(&mut random, sides);
        let most = PLACES * (store.count() + sides.0 + sides.1);
        let bits = *random
            .pick(&[1, 5, 30, most / 2, most - 1, most])
            .unwrap_or(&1);
        let seed = random.number();
        let cluster = if random.once_in(2) { "--cluster" } else { "" };
        hurt_well(&folder, &store, bits, &format!("--seed {seed} {cluster}"));
    }
}

#[test]
fn every_place_can_be_turned_over() {
    let folder = Folder::new();
    let most = PLACES * 8;
    for more in ["", "--cluster"] {
        let difference = hurt_well(&folder, &play(2, 2), most, more);
        let all = difference.lines.iter().chain(&difference.parity);
        assert_eq!(all.count(), 8);
    }
    for bits in [0, most + 1, most * 2, usize::MAX] {
        let folder = Folder::new();
        hurt(&folder, &play(2, 2), &format!("--bits {bits}")).called_wrongly();
        assert_eq!(folder.names(), ["a.store"], "{bits}");
    }
}

#[test]
fn the_same_seed_gives_the_same_damage() {
    for more in ["", "--cluster"] {
        let damage = |store: &Store, seed: &str| {
            hurt_well(&Folder::new(), store, 40, &format!("{more} {seed}"))
        };
        let store = hamlet_store();
        let first = damage(&store, "--seed 1");
        assert_eq!(damage(&store, "--seed 1"), first);
        assert_eq!(damage(&store, ""), first, "1 where none is given");
        assert_eq!(
            damage(&play(6, 6), "--seed 1"),
            first,
            "whatever the captions"
        );
        for seed in [0, 2, 3, 1 << 40, u64::MAX] {
            assert_ne!(damage(&store, &format!("--seed {seed}")), first, "{seed}");
        }
    }
}

#[test]
fn hurt_twice_with_one_seed_is_not_hurt() {
    let folder = Folder::new();
    let store = hamlet_store();
    hurt_well(&folder, &store, 77, "--seed 5");
    let once = opened(&folder.read("b.store")).expect("a store");
    hurt_well(&folder, &once, 77, "--seed 5");
    assert_eq!(folder.read("b.store"), store.file());
}

#[test]
fn damage_falls_everywhere() {
    // 40 bits for each of 50 seeds: each line and parity line of a 4 by 4 store is
    // hit at some time, and so are data, check and Hamming bits.
    let folder = Folder::new();
    let (mut lines, mut parity, mut places) = ([0; 16], [0; 8], vec![0; PLACES]);
    for seed in 0..50 {
        let difference = hurt_well(&folder, &play(4, 4), 40, &format!("--seed {seed}"));
        for (n, hit) in &difference.lines {
            lines[*n] += hit.len();
            hit.iter().for_each(|&place| places[place] += 1);
        }
        for (n, hit) in &difference.parity {
            parity[*n] += hit.len();
        }
    }
    // 2,000 bits on 24 lines are 83 for each.
    let even = |hits: &usize| (40..160).contains(hits);
    assert!(
        lines.iter().chain(&parity).all(even),
        "{lines:?} {parity:?}"
    );
    let missed = places.iter().filter(|&&hits| hits == 0).count();
    assert!(missed < PLACES / 4, "{missed} places are never hit");
    assert!(places[512..543].iter().sum::<usize>() > 20);
    assert!(places[543..].iter().sum::<usize>() > 3);
}

/// Rows and columns of the smallest rectangle around the lines hit.
fn around(difference: &Difference, columns: usize) -> (usize, usize) {
    let span = |numbers: Vec<usize>| {
        let least = numbers.iter().min().copied().unwrap_or(0);
        numbers.iter().max().map_or(0, |most| most + 1 - least)
    };
    let numbers = || difference.lines.iter().map(|(n, _)| *n);
    let rows = numbers().map(|n| n / columns).collect();
    let of_columns = numbers().map(|n| n % columns).collect();
    (span(rows), span(of_columns))
}

#[test]
fn a_cluster_lies_close_together() {
    let folder = Folder::new();
    let store = play(24, 24);
    let mut places = Vec::new();
    for seed in 1..=20 {
        let bits = 16;
        let difference = hurt_well(&folder, &store, bits, &format!("--cluster --seed {seed}"));
        assert!(difference.parity.is_empty(), "lines of the rectangle alone");
        let (rows, columns) = around(&difference, 24);
        assert!(
            rows.abs_diff(columns) <= 2,
            "about square: {rows} by {columns}"
        );
        assert!(
            rows * columns <= 2 * bits,
            "{rows} by {columns} for {bits} bits"
        );
        assert!(difference.lines.len() > 1, "more than one line is hit");
        places.push(difference.lines[0].0);

        let spread = hurt_well(&folder, &store, bits, &format!("--seed {seed}"));
        let (rows, columns) = around(&spread, 24);
        assert!(rows * columns > 2 * bits, "else they lie anywhere");
    }
    places.sort_unstable();
    places.dedup();
    assert!(
        places.len() > 5,
        "the patch lies elsewhere with another seed"
    );
}

#[test]
fn wrong_calls() {
    let folder = Folder::new();
    for more in [
        "",
        "--bits",
        "--bits x",
        "--bits -1",
        "--bits 1.5",
        "--bits 1 --bits 1",
        "--bits 1 --seed x",
        "--bits 1 --seed",
        "--bits 1 --seed -1",
        "--bits 1 --cluster=1",
        "--bits 1 --rows 3",
        "--bits 99999999999999999999999",
    ] {
        hurt(&folder, &play(2, 2), more).called_wrongly();
        assert_eq!(folder.names(), ["a.store"], "{more}");
    }
    let run = captions("hurt a.store --bits 1").within(folder.path());
    run.run().called_wrongly();
}

#[test]
fn never_over_the_input() {
    let folder = Folder::new();
    let file = play(2, 2).file();
    folder.write("a.store", &file);
    fs::hard_link(folder.at("a.store"), folder.at("hard")).expect("a link");
    for call in [
        "hurt a.store -o a.store --bits 1",
        "hurt a.store -o ./a.store --bits 1",
        "hurt hard -o a.store --bits 1",
    ] {
        captions(call).within(folder.path()).run().called_wrongly();
        assert_eq!(folder.read("a.store"), file, "{call}");
    }
    assert_eq!(folder.names(), ["a.store", "hard"]);
}

#[test]
fn standard_input_and_output() {
    let folder = Folder::new();
    let store = play(3, 3);
    hurt_well(&folder, &store, 9, "--seed 3");
    let run = captions("hurt - -o - --bits 9 --seed 3").input(&store.file());
    let ran = run.run();
    assert_eq!(ran.status, 0, "{}", ran.err);
    assert_eq!(ran.out, folder.read("b.store"));
    assert!(ran.err.contains("9 bits turned over"), "{}", ran.err);
}
