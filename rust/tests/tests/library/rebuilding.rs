//! The forecast of request Q-6 beside the library's own repair: where no trial
//! takes they give the same, and as long as all parity lines are usable repair
//! leaves no line faulty but those that the forecast leaves.

use std::collections::BTreeSet;

use library_tests::{Library, as_many_as_usual, cases, seed, watched};
use reference::PROTECTED_PLACES;
use reference::draw::forecast::{Call, Given, Way, call_on, pattern, pattern_by};
use reference::draw::{self, Damage, Outcome, Store};
use reference::random::Random;

use crate::demands::has_unusable;
use crate::forecast::forecasts;
use crate::forecast::q6::Hurt;
use crate::forecast::q6::repairs::{
    Beside, expect_equal, faulty_alone, for_trials, hurt_store, past_trials,
};
use crate::samples;

/// The library's forecast.
fn foretold(call: &Call) -> Given {
    forecasts(&Library)(call)
}

/// The library's repair.
fn repaired(store: &Store) -> Outcome {
    samples::repaired(&Library, store)
}

/// How often each mark was given, and the most passes.
#[derive(Debug, Default)]
struct Marked {
    stores: usize,
    by_mark: [usize; 5],
    most_passes: u64,
}

impl Marked {
    /// Repair of a store in which these lines are faulty and no trial takes gives
    /// what is foretold.
    fn check(&mut self, call: &Call, store: &Store) {
        let repaired = repaired(store);
        expect_equal(call, &foretold(call), &repaired);
        let left = repaired.marks.contains(&4);
        assert_eq!(repaired.answer, if left { 11 } else { 0 });
        for &mark in &repaired.marks {
            self.by_mark[usize::from(mark)] += 1;
        }
        self.stores += 1;
        self.most_passes = self.most_passes.max(repaired.passes);
    }

    /// No trial took, and everything else came up.
    fn expect(&self, least: usize, least_passes: u64) {
        let [clean, rewritten, trial, rebuilt, left] = self.by_mark;
        let others = [clean, rewritten, rebuilt, left];
        assert!(others.iter().all(|&count| count >= least), "{self:?}");
        assert!(self.most_passes >= least_passes, "{self:?}");
        assert_eq!(trial, 0, "{self:?}");
    }
}

#[test]
fn where_no_trial_takes_repair_gives_the_forecast() {
    let mut random = Random::new(seed());
    let mut marked = Marked::default();
    for case in 0..cases(1_500) {
        for hurt in Hurt::ALL {
            let sides = draw::sides(&mut random, 2 + case % 16);
            let faulty = pattern(&mut random, sides);
            let call = call_on(&mut random, sides, faulty);
            let store = past_trials(&mut random, &call, hurt);
            marked.check(&call, &store);
        }
    }
    println!("request Q-6, repairs without trials: {marked:?}");
    if as_many_as_usual() {
        marked.expect(1_000, 5);
    }
}

/// A store of zero lines in which these are faulty, and no trial takes: each is
/// hurt at four places that no other of its row or column has, so that wherever
/// two are left their mismatch has at least eight. There are 135 such fours, and
/// a row and a column together have fewer faulty lines than that.
fn hurt_apart(random: &mut Random, call: &Call) -> Store {
    let mut store = Store::zero(call.rows, call.columns);
    let mut places: Vec<usize> = (0..PROTECTED_PLACES).collect();
    random.shuffle(&mut places);
    let fours: Vec<&[usize]> = places.chunks_exact(4).collect();
    let mut taken = vec![BTreeSet::new(); call.rows + call.columns];
    for n in (0..store.count()).filter(|&n| call.faulty[n] != 0) {
        let (row, column) = (n / call.columns, call.rows + n % call.columns);
        let is_free = |four: &usize| !taken[row].contains(four) && !taken[column].contains(four);
        let four = (0..fours.len()).find(is_free).expect("four places");
        taken[row].insert(four);
        taken[column].insert(four);
        store.hurt(n, fours[four]);
    }
    store
}

/// The same of the largest stores: patterns with few lines in each row and column.
#[test]
fn the_largest_stores_without_trials() {
    let mut random = Random::new(seed());
    let mut marked = Marked::default();
    let side = if watched() { 9 } else { 512 };
    let ways = [
        Way::Few,
        Way::AsGroups,
        Way::OpenChain,
        Way::ChainToRing,
        Way::Ring,
    ];
    for way in ways {
        let faulty = pattern_by(&mut random, (side, side), way);
        let call = call_on(&mut random, (side, side), faulty);
        let mut store = hurt_apart(&mut random, &call);
        let whole = (0..store.count()).filter(|&n| call.faulty[n] == 0);
        for n in whole.step_by(97) {
            store.hurt(n, &[draw::place(&mut random)]);
        }
        marked.check(&call, &store);
    }
    println!("request Q-6, the largest repairs without trials: {marked:?}");
    assert!(watched() || marked.most_passes > 20);
}

/// Repairs a store, and holds it against the forecast of the lines that are faulty
/// after the first reading.
fn hold(random: &mut Random, store: &Store, beside: &mut Beside) {
    let call = faulty_alone(random, store);
    beside.check(&call, &foretold(&call), &repaired(store));
}

#[test]
fn with_trials_no_line_is_left_that_the_forecast_saves() {
    let mut random = Random::new(seed());
    let mut beside = Beside::default();
    for case in 0..cases(6_000) {
        let sides = draw::sides(&mut random, 2 + case % 8);
        let store = for_trials(&mut random, sides);
        hold(&mut random, &store, &mut beside);
    }
    println!("request Q-6, repairs with trials: {beside:?}");
    if as_many_as_usual() {
        beside.expect(100);
        beside.expect_other_passes(100);
    }
}

#[test]
fn no_damage_leaves_a_line_that_the_forecast_saves() {
    let mut random = Random::new(seed());
    let mut beside = Beside::default();
    for way in (0..cases(300)).flat_map(|_| Damage::ALL) {
        let sides = draw::sides(&mut random, 6);
        let store = hurt_store(&mut random, sides, way);
        hold(&mut random, &store, &mut beside);
    }
    println!("request Q-6, repairs of any damage: {beside:?}");
    if as_many_as_usual() {
        beside.expect(100);
    }
}

/// Where some parity line can't be read, the forecast is no bound: lines are left
/// that it saves.
#[test]
fn with_unusable_parity_lines_more_may_be_left() {
    let mut random = Random::new(seed());
    let (mut unusable, mut exceeded) = (0, 0);
    for _ in 0..cases(6_000) {
        let store = draw::hurt_store(&mut random, 6);
        if !has_unusable(&store) {
            continue;
        }
        let given = foretold(&faulty_alone(&mut random, &store));
        let repaired = repaired(&store);
        let mut lines = repaired.marks.iter().zip(&given.marks);
        exceeded += usize::from(lines.any(|(&mark, &foretold)| mark == 4 && foretold == 3));
        unusable += 1;
    }
    println!("request Q-6: {exceeded} of {unusable} repairs with unusable groups leave more");
    assert!(!as_many_as_usual() || exceeded > 100);
}
