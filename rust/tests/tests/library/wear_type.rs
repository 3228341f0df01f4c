//! The crate's wear report and share, over C's functions.

use std::cmp::{Ordering, Reverse};

use library_tests::{cases, seed};
use reference::draw::{self, wear::Flaw};
use reference::random::Random;
use sudoku::{Mark, Outcome, Percent, Refusal, Repaired, Store, TextError, Wear};

use crate::crate_over_c::store_of;
use crate::tours::counted;
use crate::wear::q5::{self, cases::ALL_LINES, cases::EMPTY, cases::Report, cases::of_share};

/// The report that these numbers are.
fn wear(numbers: Report) -> Wear {
    Wear::from_numbers(numbers).expect("a report")
}

/// The report that these ten numbers in a slice are.
fn wear_in(numbers: &[u64]) -> Wear {
    wear(numbers.try_into().expect("ten numbers"))
}

/// An addition to a report, by the crate's type.
fn add(numbers: &[u64], marks: &[u8], answer: u32) -> q5::Added {
    let mut wear = wear_in(numbers);
    let given = wear.add_result(marks, answer).err();
    (given.map_or(0, Refusal::number), wear.numbers().to_vec())
}

/// A comparison of two reports, by the order of their shares.
fn compare(a: &[u64], b: &[u64]) -> q5::Compared {
    let [a, b] = [a, b].map(|numbers| wear_in(numbers).rebuilt_share());
    let order = a.cmp(&b);
    assert_eq!(a.partial_cmp(&b), Some(order));
    assert_eq!(a == b, order.is_eq());
    match order {
        Ordering::Equal => (0, 0),
        Ordering::Less => (0, 1),
        Ordering::Greater => (0, 2),
    }
}

#[test]
fn additions_worked_out_by_hand() {
    q5::expect_additions(&q5::cases::taken(), add);
    q5::expect_additions(&q5::cases::longest(), add);
    q5::expect_additions(&q5::onto_whole_reports(), add);
    q5::expect_additions(&q5::cases::refused(), add);
    q5::expect_tour(add);
}

#[test]
fn shares_in_order() {
    q5::expect_shares(&q5::cases::plain_shares(), compare);
    q5::expect_shares(&q5::cases::near_shares(), compare);
    q5::expect_nothing_else_counts(compare);
    let reports = q5::many_reports(&mut Random::new(seed()), 40);
    assert!(q5::expect_order(&reports, compare) > reports.len());
}

/// What repair gives for an undamaged store of four lines.
fn four_lines() -> Repaired {
    Store::new(2, 2).expect("two by two").repair()
}

#[test]
fn repairs_of_stores_are_added_up() {
    let mut random = Random::new(seed());
    let (mut wear, mut taken) = (Wear::new(), vec![]);
    for _ in 0..cases(50) {
        let repaired = store_of(&draw::hurt_store(&mut random, 6)).repair();
        assert_eq!(wear.add(&repaired), Ok(()));
        let marks: Vec<u8> = repaired.marks.iter().map(|mark| mark.number()).collect();
        taken.push((marks, repaired.outcome.number()));
        assert_eq!(wear.numbers(), counted(&taken));
    }
}

#[test]
fn what_is_refused_leaves_the_report() {
    let before = wear([6, 25, 7, 6, 5, 4, 3, 3, 2, 1]);
    let mut after = before;
    for mark in [5, 255] {
        let mut wrong = four_lines();
        wrong.marks[3] = Mark::Other(mark);
        assert_eq!(after.add(&wrong), Err(Refusal::Wear));
    }
    // Refusals, which no `Repaired` can have, and a number of none.
    for answer in [10, 9, 15, 13] {
        assert_eq!(after.add_result(&[0; 4], answer), Err(Refusal::Wear));
    }
    let mut short = four_lines();
    short.marks.pop();
    assert_eq!(after.add(&short), Err(Refusal::Wear));
    assert_eq!(after, before);
    // And the next one that is a result is taken in.
    assert_eq!(after.add(&four_lines()), Ok(()));
    assert_eq!(after.numbers(), [7, 29, 11, 6, 5, 4, 3, 4, 2, 1]);

    let before = wear(of_share((1, ALL_LINES)));
    let mut full = before;
    assert_eq!(full.stores(), Wear::MOST_STORES);
    assert_eq!(full.add(&four_lines()), Err(Refusal::Wear));
    assert_eq!(full, before);
}

#[test]
fn each_number_by_its_name() {
    let wear = wear([6, 25, 7, 6, 5, 4, 3, 3, 2, 1]);
    assert_eq!((wear.stores(), wear.lines()), (6, 25));
    assert_eq!(Mark::ALL.map(|mark| wear.lines_with(mark)), [7, 6, 5, 4, 3]);
    assert_eq!(wear.lines_with(Mark::Other(5)), 0);
    assert_eq!(wear.lines_with(Mark::Other(255)), 0);
    let counted = [Outcome::Done, Outcome::Left, Outcome::Differs];
    assert_eq!(counted.map(|outcome| wear.stores_with(outcome)), [3, 2, 1]);
}

#[test]
fn ten_numbers_there_and_back() {
    assert_eq!(Wear::new().numbers(), EMPTY);
    assert_eq!(Wear::default(), Wear::new());
    let mut random = Random::new(seed());
    for _ in 0..cases(3_000) {
        let numbers = draw::wear::report(&mut random);
        let wear = wear(numbers);
        assert_eq!(wear.numbers(), numbers);
        assert_eq!(<[u64; 10]>::from(wear), numbers);
        assert_eq!(Wear::try_from(numbers), Ok(wear));
        assert_eq!(Wear::from_text(&wear.to_text()), Ok(wear));
    }
    for flaw in Flaw::ALL.into_iter().filter(|&flaw| flaw != Flaw::Length) {
        for _ in 0..cases(300) {
            let broken = draw::wear::broken_by(&mut random, flaw);
            let numbers: [u64; 10] = broken.try_into().expect("ten numbers");
            assert_eq!(Wear::from_numbers(numbers), Err(Refusal::Wear), "{flaw:?}");
            assert_eq!(Wear::try_from(numbers), Err(Refusal::Wear), "{flaw:?}");
        }
    }
}

#[test]
fn a_text_is_ten_numbers_and_nothing_else() {
    let numbers = [1, 4, 2, 0, 0, 1, 1, 0, 1, 0];
    assert_eq!(wear(numbers).to_text(), "1 4 2 0 0 1 1 0 1 0");
    for right in [
        "1 4 2 0 0 1 1 0 1 0",
        "\n 1 4  2 0 0 1 1\t0 1 0\r\n",
        "1 0004 2 0 0 1 1 0 1 00",
    ] {
        assert_eq!(Wear::from_text(right), Ok(wear(numbers)), "{right:?}");
    }
    let count = TextError::Count;
    let number = |word: &str| TextError::Number(word.to_string());
    for (wrong, error) in [
        ("", count(0)),
        ("1 4 2 0 0 1 1 0 1", count(9)),
        ("1 4 2 0 0 1 1 0 1 0 0", count(11)),
        ("1 4 2 0 0 1 1 0 1 +0", number("+0")),
        ("-1 4 2 0 0 1 1 0 1 0", number("-1")),
        ("1, 4 2 0 0 1 1 0 1 0", number("1,")),
        ("1 4 2 0 0 1 1 0 0x1 0", number("0x1")),
        ("1 4.0 2 0 0 1 1 0 1 0", number("4.0")),
        // One more than 64 bits hold.
        (
            "1 4 2 0 0 1 1 0 1 18446744073709551616",
            number("18446744073709551616"),
        ),
        ("1 5 2 0 0 1 1 0 1 0", TextError::Report),
        ("1 4 2 0 0 1 1 0 1 18446744073709551615", TextError::Report),
    ] {
        assert_eq!(Wear::from_text(wrong), Err(error), "{wrong:?}");
    }
}

#[test]
fn a_person_reads_what_is_wrong() {
    assert_eq!(
        Refusal::Wear.to_string(),
        "the numbers are no wear report, the report is full, or this is no result of a repair"
    );
    let says = |text: &str| Wear::from_text(text).expect_err("no report").to_string();
    assert_eq!(says("1 2 3"), "a wear report is ten numbers, not 3");
    assert_eq!(
        says("1 4 2 0 0 1 1 0 1 x"),
        "\"x\" is not a number of a wear report"
    );
    assert_eq!(
        says("1 5 2 0 0 1 1 0 1 0"),
        "these ten numbers don't add up to a wear report, or are too great"
    );
}

#[test]
fn an_empty_report_as_people_read_it() {
    let expected = "\
0 stores, 0 lines, 0 rebuilt (0.00 %)
lines   clean    0    0.00 %  correct as found
        alone    0    0.00 %  rewritten, each by itself
        trial    0    0.00 %  mended by trial
        rebuilt  0    0.00 %  rebuilt from a row or column
        faulty   0    0.00 %  given up
stores  done     0    0.00 %  every line is whole
        left     0    0.00 %  faulty lines are left
        differs  0    0.00 %  lines and tables differ: trust no line";
    assert_eq!(Wear::new().to_string(), expected);
}

#[test]
fn one_store_as_people_read_it() {
    let mut wear = Wear::new();
    assert_eq!(wear.add_result(&[3; 1_024], 0), Ok(()));
    let expected = "\
1 store, 1,024 lines, 1,024 rebuilt (100.00 %)
lines   clean        0    0.00 %  correct as found
        alone        0    0.00 %  rewritten, each by itself
        trial        0    0.00 %  mended by trial
        rebuilt  1,024  100.00 %  rebuilt from a row or column
        faulty       0    0.00 %  given up
stores  done         1  100.00 %  every line is whole
        left         0    0.00 %  faulty lines are left
        differs      0    0.00 %  lines and tables differ: trust no line";
    assert_eq!(wear.to_string(), expected);
}

/// Nearly all is not all, and nearly none is not none.
#[test]
fn a_full_report_as_people_read_it() {
    let (lines, rebuilt) = (4_194_304_000_000, 1_048_576_000_000);
    let clean = lines - rebuilt - 1;
    let wear = wear([1_000_000, lines, clean, 0, 1, rebuilt, 0, 999_999, 0, 1]);
    let expected = "\
1,000,000 stores, 4,194,304,000,000 lines, 1,048,576,000,000 rebuilt (25.00 %)
lines   clean    3,145,727,999,999   75.00 %  correct as found
        alone                    0    0.00 %  rewritten, each by itself
        trial                    1   <0.01 %  mended by trial
        rebuilt  1,048,576,000,000   25.00 %  rebuilt from a row or column
        faulty                   0    0.00 %  given up
stores  done               999,999  >99.99 %  every line is whole
        left                     0    0.00 %  faulty lines are left
        differs                  1   <0.01 %  lines and tables differ: trust no line";
    assert_eq!(wear.to_string(), expected);
}

/// Two decimals don't tell lightly worn stores apart; the count does.
#[test]
fn lightly_worn_stores_as_people_read_them() {
    for (rebuilt, expected) in [
        (0, "0 rebuilt (0.00 %)"),
        (1, "1 rebuilt (<0.01 %)"),
        (2_621, "2,621 rebuilt (<0.01 %)"),
        (2_622, "2,622 rebuilt (0.01 %)"),
        (8_000, "8,000 rebuilt (0.02 %)"),
        (12_000, "12,000 rebuilt (0.02 %)"),
    ] {
        let clean = 52_428_800 - rebuilt;
        let shown = wear([200, 52_428_800, clean, 0, 0, rebuilt, 0, 200, 0, 0]).to_string();
        let expected = format!("200 stores, 52,428,800 lines, {expected}\n");
        assert!(shown.starts_with(&expected), "{shown}");
    }
}

#[test]
fn percent_of_parts() {
    for (part, whole, expected) in [
        (0, 0, "0.00 %"),
        (0, 7, "0.00 %"),
        (7, 7, "100.00 %"),
        (1, 3, "33.33 %"),
        (2, 3, "66.67 %"),
        (1, 8, "12.50 %"),
        (1, 10_000, "0.01 %"),
        (9_999, 10_000, "99.99 %"),
        // Halves go up, but to no end of the scale.
        (3, 20_000, "0.02 %"),
        (1, 20_000, "0.01 %"),
        (1, 20_001, "<0.01 %"),
        (1, u64::MAX, "<0.01 %"),
        (19_997, 20_000, "99.99 %"),
        (19_999, 20_000, ">99.99 %"),
        (u64::MAX - 1, u64::MAX, ">99.99 %"),
        (u64::MAX, u64::MAX, "100.00 %"),
        // More than the whole is all of it.
        (8, 7, "100.00 %"),
        (100_001, 100_000, "100.00 %"),
        (u64::MAX, 1, "100.00 %"),
        (1, 0, "0.00 %"),
        (u64::MAX, 0, "0.00 %"),
    ] {
        let shown = Percent::of(part, whole).to_string();
        assert_eq!(shown, expected, "{part} of {whole}");
    }
    assert_eq!(format!("[{:>9}]", Percent::of(1, 8)), "[  12.50 %]");
    let share = wear(of_share((1, 8))).rebuilt_share();
    assert_eq!(format!("[{share:<9}]"), "[12.50 %  ]");
}

#[test]
fn the_most_worn_units_come_first() {
    // Shares 0, 1/3, 1/4, 1/3 and 1; what is equal keeps its order.
    let [none, third, quarter, sixth, all] = [
        EMPTY,
        of_share((3, 9)),
        of_share((2, 8)),
        of_share((2, 6)),
        of_share((4, 4)),
    ]
    .map(wear);
    let mut units = [none, third, quarter, sixth, all];
    units.sort_by_key(|unit| Reverse(unit.rebuilt_share()));
    assert_eq!(units, [all, third, sixth, quarter, none]);
    units.sort_by_key(Wear::rebuilt_share);
    assert_eq!(units, [none, quarter, third, sixth, all]);
    // Equal shares are no equal reports.
    assert_eq!(third.rebuilt_share(), sixth.rebuilt_share());
    assert_ne!(third, sixth);
    let worst = units.iter().map(Wear::rebuilt_share).max();
    assert_eq!(worst, Some(all.rebuilt_share()));
}
