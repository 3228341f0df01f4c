//! Wear reports of whole tours, against the second implementation and against
//! the list of what was taken in: drawn results, and those of real repairs.

use library_tests::wear::{add, both_add, both_order};
use library_tests::{as_many_as_usual, both, cases, seed, watched};
use reference::draw::{self, call_on};
use reference::random::Random;

use crate::samples::{repair, repaired};
use crate::wear::q5::cases::EMPTY;

/// The marks of a store's lines, and the answer of its repair.
pub type Outcome = (Vec<u8>, u32);

/// The report of these stores, counted one thing after the other.
pub fn counted(stores: &[Outcome]) -> [u64; 10] {
    let mut wear = EMPTY;
    for (marks, answer) in stores {
        wear[0] += 1;
        for &mark in marks {
            wear[1] += 1;
            wear[2 + usize::from(mark)] += 1;
        }
        let of_answer = match answer {
            0 => 7,
            11 => 8,
            12 => 9,
            other => panic!("no store is taken in with answer {other}"),
        };
        wear[of_answer] += 1;
    }
    wear
}

/// Every store of a tour is repaired and taken in. Some are first handed to
/// repair with a buffer that is too short: what that leaves is refused.
#[test]
fn tours_of_real_repairs() {
    for on in both() {
        let mut random = Random::new(seed());
        let (mut wear, mut taken) = (EMPTY.to_vec(), vec![]);
        for store in 0..cases(60) {
            let drawn = draw::hurt_store(&mut random, 6);
            if store % 3 == 0 {
                let mut call = call_on(&mut random, drawn.clone());
                call.marks.fill(0);
                call.out.pop();
                let refused = repair(on, &call);
                assert_eq!(refused.answer, 7);
                let result = (&refused.marks[..], refused.answer);
                assert_eq!(add(on, &wear, result, store), (15, wear.clone()));
            }
            let outcome = repaired(on, &drawn);
            let (answer, after) = add(on, &wear, (&outcome.marks, outcome.answer), store);
            assert_eq!(answer, 0);
            wear = after;
            taken.push((outcome.marks, outcome.answer));
            assert_eq!(wear, counted(&taken));
        }
        if as_many_as_usual() {
            assert!(!wear.contains(&0), "some mark or answer never came up");
        }
    }
}

/// From the empty report on, one result after the other, refused ones among
/// them: the report is always that of those taken in.
#[test]
fn drawn_tours_agree() {
    let mut random = Random::new(seed());
    let mut additions = 0;
    for _ in 0..cases(1_000) {
        let (mut wear, mut taken) = (EMPTY.to_vec(), vec![]);
        for _ in 0..random.below(40) {
            let refused = random.once_in(3);
            let (marks, answer) = if refused {
                draw::wear::refused(&mut random)
            } else {
                draw::wear::taken(&mut random, 80)
            };
            let (given, after) = both_add(&wear, (&marks, answer), random.below(16));
            assert_eq!(given, if refused { 15 } else { 0 });
            wear = after;
            if !refused {
                taken.push((marks, answer));
            }
            assert_eq!(wear, counted(&taken));
            additions += 1;
        }
    }
    println!("differential, wear of tours: {additions} cases");
}

/// Stores of every length up to 800 lines, and of some sides: each mark alone,
/// and any marks; with one byte among them that is no mark they are refused.
#[test]
fn stores_of_every_length_agree() {
    let mut random = Random::new(seed());
    let mut additions = 0;
    let stride = if watched() { 29 } else { 1 };
    let lengths = (4..=800).step_by(stride);
    for length in lengths.chain([32 * 32, 2 * 512, 512 * 512]) {
        for mark in 0..6 {
            let mut marks = vec![mark; length];
            if mark == 5 {
                marks.fill_with(|| random.below(5) as u8);
            }
            let shift = random.below(16);
            let (answer, wear) = both_add(&EMPTY, (&marks, 0), shift);
            assert_eq!((answer, wear[1]), (0, length as u64));
            marks[random.below(length)] = random.between(5, 255) as u8;
            assert_eq!(both_add(&EMPTY, (&marks, 0), shift).0, 15);
            additions += 2;
        }
    }
    println!("differential, wear of stores of every length: {additions} cases");
}

/// How often each answer was given.
#[derive(Default)]
struct Given {
    done: usize,
    length: usize,
    refused: usize,
}

impl Given {
    /// The answers of so many drawn calls.
    fn by(usual: usize, call: impl Fn(&mut Random) -> u32) -> Given {
        let mut random = Random::new(seed());
        let mut given = Given::default();
        for _ in 0..cases(usual) {
            match call(&mut random) {
                0 => given.done += 1,
                7 => given.length += 1,
                _ => given.refused += 1,
            }
        }
        given
    }

    /// Prints the line that the gate counts; each answer came up.
    fn print(&self, name: &str) {
        let (done, length, refused) = (self.done, self.length, self.refused);
        println!("differential, {name}: {} cases", done + length + refused);
        println!("    answers 0: {done}, 7: {length}, 15: {refused}");
        if as_many_as_usual() {
            assert!([done, length, refused].iter().all(|&count| count > 500));
        }
    }
}

#[test]
fn drawn_additions_agree() {
    let given = Given::by(30_000, |random| {
        let wear = draw::wear::numbers(random);
        let (marks, answer) = draw::wear::result(random);
        both_add(&wear, (&marks, answer), random.below(16)).0
    });
    given.print("wear, additions");
}

#[test]
fn drawn_comparisons_agree() {
    let given = Given::by(30_000, |random| {
        let a = draw::wear::numbers(random);
        let b = draw::wear::numbers(random);
        both_order(&a, &b, random.below(16)).0
    });
    given.print("wear, comparisons");
}

/// Reports of nearly the same share: each order comes up, and the other way
/// round it is turned.
#[test]
fn nearly_equal_shares_agree() {
    let mut random = Random::new(seed());
    let mut orders = [0; 3];
    for _ in 0..cases(60_000) {
        let a = draw::wear::report(&mut random);
        let b = draw::wear::near(&mut random, &a);
        let (answer, order) = both_order(&a, &b, random.below(16));
        assert_eq!(answer, 0);
        orders[order as usize] += 1;
        let turned = [0, 2, 1][order as usize];
        assert_eq!(both_order(&b, &a, random.below(16)), (0, turned));
    }
    let count = 2 * orders.iter().sum::<usize>();
    println!("differential, wear, nearly equal shares: {count} cases");
    println!("    equal, smaller, greater: {orders:?}");
    if as_many_as_usual() {
        assert!(orders.iter().all(|&count| count > 1_000));
    }
}
