//! Wear figures for a whole tour, as request Q-5 words them.

mod q5;

use q5::cases;
use reference::draw::wear as draw;
use reference::draw::wear::Flaw;
use reference::draw::{Store, hurt_store};
use reference::random::Random;
use reference::wear::{compare, wear_of};

fn add(wear: &[u64], marks: &[u8], answer: u32) -> q5::Added {
    let mut after = wear.to_vec();
    (reference::wear::add(&mut after, marks, answer), after)
}

#[test]
fn additions_worked_out_by_hand() {
    q5::expect_additions(&cases::taken(), add);
    q5::expect_additions(&cases::longest(), add);
    q5::expect_additions(&q5::onto_whole_reports(), add);
    q5::expect_tour(add);
}

#[test]
fn additions_that_are_refused() {
    q5::expect_additions(&cases::refused(), add);
    q5::expect_additions(&q5::onto_broken_reports(), add);
}

#[test]
fn shares_compared_by_hand() {
    q5::expect_shares(&cases::plain_shares(), compare);
    q5::expect_shares(&cases::near_shares(), compare);
    q5::expect_nothing_else_counts(compare);
}

#[test]
fn comparisons_that_are_refused() {
    q5::expect_refused_comparisons(compare);
}

#[test]
fn a_list_is_counted() {
    let stores: Vec<(&[u8], u32)> = cases::tour()
        .map(|(marks, answer, _)| (marks, answer))
        .into();
    assert_eq!(wear_of(&stores[..0]), cases::EMPTY);
    for (n, (_, _, due)) in cases::tour().into_iter().enumerate() {
        assert_eq!(wear_of(&stores[..=n]), due, "{n}");
    }
}

#[test]
fn a_list_is_counted_up_to_a_million_stores() {
    let store: (&[u8], u32) = (&[0, 3, 3, 1], 0);
    let mut list = vec![store; 1_000_001];
    list[7] = (&[4, 4, 4, 4], 11);
    // Left out, and leaves its place to the next one.
    list[8] = (&[2, 2, 2, 2], 9);
    let full = [
        1_000_000, 4_000_000, 999_999, 999_999, 0, 1_999_998, 4, 999_999, 1, 0,
    ];
    assert_eq!(wear_of(&list), full);
    list.push((&[2, 2, 2, 2], 12));
    assert_eq!(wear_of(&list), full);

    let mut wear = cases::EMPTY.to_vec();
    let refused = list.iter().filter(|(marks, answer)| {
        let given = reference::wear::add(&mut wear, marks, *answer);
        assert!([0, 15].contains(&given));
        given == 15
    });
    assert_eq!(refused.count(), 2);
    assert_eq!(wear, full);
}

/// Results one after another from the empty report on: the report is always that
/// of the list so far.
#[test]
fn drawn_lists_give_their_counts() {
    let mut random = Random::new(50);
    let mut refused = 0;
    for _ in 0..60 {
        let (mut wear, mut list) = (cases::EMPTY.to_vec(), vec![]);
        let mut taken = 0;
        for _ in 0..20 {
            let (marks, answer) = draw::result(&mut random);
            let (given, after) = add(&wear, &marks, answer);
            list.push((marks, answer));
            assert_eq!(after == wear, given == 15, "a refusal leaves it as it was");
            taken += u64::from(given == 0);
            wear = after;
            assert_eq!(wear, wear_of(&list));
        }
        assert_eq!(wear[0], taken);
        refused += 20 - taken;
    }
    println!("refused {refused} of 1200");
    assert!((100..600).contains(&refused));
}

#[test]
fn drawn_additions_and_comparisons_are_as_the_request_says() {
    let mut random = Random::new(51);
    let mut seen = q5::Seen::default();
    for _ in 0..20_000 {
        seen.check_addition(&mut random, add);
        seen.check_comparison(&mut random, compare);
    }
    println!("{seen:?}");
    seen.expect(100);
}

#[test]
fn shares_are_in_order() {
    let mut random = Random::new(52);
    let mut equal = 0;
    for _ in 0..20 {
        let reports = q5::many_reports(&mut random, 60);
        equal += q5::expect_order(&reports, compare);
    }
    println!("{equal} pairs of 72000 are equal");
    assert!((10_000..40_000).contains(&equal));
}

#[test]
fn every_result_of_repair_is_taken() {
    let mut random = Random::new(53);
    let mut list = vec![];
    let mut wear = cases::EMPTY.to_vec();
    for _ in 0..300 {
        let store: Store = hurt_store(&mut random, 6);
        let repaired = store.repaired(0);
        let (answer, after) = add(&wear, &repaired.marks, repaired.answer);
        assert_eq!(answer, 0);
        assert_eq!(after[1] - wear[1], store.count() as u64);
        wear = after;
        list.push((repaired.marks, repaired.answer));
    }
    println!("{wear:?}");
    assert_eq!(wear, wear_of(&list));
    assert!(wear.iter().all(|&count| count > 10));
}

#[test]
fn reports_are_drawn_whole_and_broken() {
    let mut random = Random::new(54);
    for _ in 0..5_000 {
        let report = draw::report(&mut random);
        let near = draw::near(&mut random, &report);
        assert_eq!(compare(&report, &near).0, 0, "{report:?}, {near:?}");
        for flaw in Flaw::ALL {
            let broken = draw::broken_by(&mut random, flaw);
            assert_eq!(compare(&report, &broken), (flaw.answer(), 0), "{flaw:?}");
        }
        let (marks, answer) = draw::taken(&mut random, 30);
        assert_eq!(add(&cases::EMPTY, &marks, answer).0, 0);
        let (marks, answer) = draw::refused(&mut random);
        assert_eq!(add(&cases::EMPTY, &marks, answer).0, 15);
    }
}

#[test]
fn only_exact_products_tell_drawn_shares_apart() {
    let mut random = Random::new(57);
    let (mut floating, mut wrapped) = (0, 0);
    for _ in 0..5_000 {
        let a = draw::report(&mut random);
        let b = draw::near(&mut random, &a);
        let c = draw::report(&mut random);
        let share = |of: &[u64; 10]| of[5] as f64 / of[1].max(1) as f64;
        let same = share(&a) == share(&b);
        floating += usize::from(same && compare(&a, &b).1 != 0);
        let product = |of: &[u64; 10], by: &[u64; 10]| of[5].wrapping_mul(by[1].max(1));
        let same = product(&a, &c) == product(&c, &a);
        wrapped += usize::from(same && compare(&a, &c).1 != 0);
    }
    println!("{floating} agree as floating numbers, {wrapped} in 64 bits");
    assert!(floating > 200 && wrapped > 200);
}
