//! What request Q-5 says of wear reports: their counts are those of the list of
//! stores taken in, refused ones left out; shares of rebuilt lines are compared
//! exactly, and no lines are share zero; a refusal leaves the report as it was.
//! Refusals are 7, a report of another length than ten numbers, and 15.
//!
//! Everything here takes what an implementation gives, so that the tests of
//! the library use it too: an addition as a function of report, marks and answer
//! to the answer and the report after; a comparison as one of two reports to the
//! answer and the order.

pub mod cases;

use std::array;
use std::cmp::Ordering;

use reference::draw::wear as draw;
use reference::random::Random;
use reference::wear::wear_of;

use cases::{Addition, EMPTY, NONE_REBUILT, QUARTERS, Report, Shares, of_share};

/// What an addition gives: the answer, and the report after.
pub type Added = (u32, Vec<u64>);

/// What a comparison gives: the answer and the order.
pub type Compared = (u32, u32);

/// These additions give the reports that they should, or are refused and leave
/// the report as it was.
pub fn expect_additions(cases: &[Addition], add: impl Fn(&[u64], &[u8], u32) -> Added) {
    for case in cases {
        let due = match case.due {
            Ok(report) => (0, report.to_vec()),
            Err(refusal) => (refusal, case.wear.clone()),
        };
        let given = add(&case.wear, &case.marks, case.answer);
        assert_eq!(given, due, "{}, onto {:?}", case.says, case.wear);
    }
}

/// Additions of four clean lines to reports that keep the limits: full ones alone
/// refuse them.
pub fn onto_whole_reports() -> Vec<Addition> {
    let more = [1, 4, 4, 0, 0, 0, 0, 1, 0, 0];
    let onto = |(says, report): (&str, Report)| {
        let full = report[0] == 1_000_000;
        let sum = array::from_fn(|i| report[i] + more[i]);
        let due = if full { Err(15) } else { Ok(sum) };
        Addition::new(says, &report, (&[0; 4], 0), due)
    };
    cases::whole_reports().into_iter().map(onto).collect()
}

/// Additions to reports of other lengths and to broken ones, of a result that
/// fits and of some that don't: 7 comes before 15.
pub fn onto_broken_reports() -> Vec<Addition> {
    let broken = cases::broken_reports();
    let broken = broken.iter().map(|(says, report)| (*says, &report[..], 15));
    let lengths = cases::of_other_lengths();
    let lengths = lengths.iter().map(|report| ("a length", &report[..], 7));
    let results: [(&[u8], u32); 3] = [(&[0, 1, 2, 3], 0), (&[0, 1, 2, 5], 11), (&[0], 15)];
    let with_results = |(says, report, refusal)| {
        results.map(|result| Addition::new(says, report, result, Err(refusal)))
    };
    broken.chain(lengths).flat_map(with_results).collect()
}

/// A tour, repair after repair from the empty report on.
pub fn expect_tour(add: impl Fn(&[u64], &[u8], u32) -> Added) {
    let mut wear = EMPTY.to_vec();
    for (n, (marks, answer, due)) in cases::tour().into_iter().enumerate() {
        let refusal = if due[..] == wear[..] { 15 } else { 0 };
        let given = add(&wear, marks, answer);
        assert_eq!(given, (refusal, due.to_vec()), "repair {n}");
        wear = given.1;
    }
}

/// These shares stand to each other as they should, from both sides.
pub fn expect_shares(cases: &[Shares], compare: impl Fn(&[u64], &[u64]) -> Compared) {
    for &(says, a, b, order) in cases {
        let (a, b) = (of_share(a), of_share(b));
        assert_eq!(compare(&a, &b), (0, order), "{says}");
        assert_eq!(compare(&b, &a), (0, mirrored(order)), "{says}, mirrored");
    }
}

/// Nothing but lines and rebuilt lines makes a share: marks and answers apart,
/// equal shares are equal, and a quarter is more than nothing.
pub fn expect_nothing_else_counts(compare: impl Fn(&[u64], &[u64]) -> Compared) {
    for (i, j) in (0..25).map(|n| (n / 5, n % 5)) {
        assert_eq!(compare(&QUARTERS[i], &QUARTERS[j]), (0, 0), "{i}, {j}");
        let none = (&NONE_REBUILT[i], &NONE_REBUILT[j]);
        assert_eq!(compare(none.0, none.1), (0, 0), "none, {i}, {j}");
        assert_eq!(compare(&QUARTERS[i], none.1), (0, 2), "both, {i}, {j}");
    }
}

/// Reports that keep the limits are compared; one that doesn't is refused on
/// either side with 15, and before that one of another length with 7.
pub fn expect_refused_comparisons(compare: impl Fn(&[u64], &[u64]) -> Compared) {
    let (whole, broken) = (cases::whole_reports(), cases::broken_reports());
    let lengths = cases::of_other_lengths();
    let expect = |says: &str, a: &[u64], b: &[u64], due| {
        assert_eq!(compare(a, b), due, "{says}: {a:?}, {b:?}");
        assert_eq!(compare(b, a), due, "{says}: {b:?}, {a:?}");
    };
    for (says, report) in &whole {
        expect(says, report, report, (0, 0));
        for (with, other) in &whole {
            assert_eq!(compare(report, other).0, 0, "{says}, {with}");
        }
    }
    for (says, report) in &broken {
        for (_, other) in whole.iter().chain(&broken) {
            expect(says, report, other, (15, 0));
        }
    }
    for other in &lengths {
        for (says, report) in whole.iter().chain(&broken) {
            expect(says, report, other, (7, 0));
        }
        expect("both", other, other, (7, 0));
    }
}

/// The order from the other side.
fn mirrored(order: u32) -> u32 {
    [0, 2, 1][order as usize]
}

/// Whether these are taken away from a number one by one until nothing is left:
/// no sum is made.
fn uses_up(number: u64, parts: &[u64]) -> bool {
    let left = parts
        .iter()
        .try_fold(number, |left, &part| left.checked_sub(part));
    left == Some(0)
}

/// The refusal that numbers handed in as a report get.
fn refusal(numbers: &[u64]) -> Option<u32> {
    let &[stores, lines, ref marks @ .., done, left, differs] = numbers else {
        return Some(7);
    };
    if marks.len() != 5 {
        return Some(7);
    }
    let within = stores <= 1_000_000 && lines <= stores * 4_194_304;
    let adds_up = uses_up(lines, marks) && uses_up(stores, &[done, left, differs]);
    (!within || !adds_up).then_some(15)
}

/// The order of two shares by division: of their whole parts, and where these are
/// equal of what is left over, turned upside down. No product is made.
fn by_division((a, of_a): (u64, u64), (b, of_b): (u64, u64)) -> Ordering {
    match (of_a, of_b) {
        (0, 0) => return Ordering::Equal,
        (0, _) => return 0.cmp(&b),
        (_, 0) => return a.cmp(&0),
        _ => {}
    }
    let wholes = (a / of_a).cmp(&(b / of_b));
    wholes.then_with(|| match (a % of_a, b % of_b) {
        (0, rest) => 0.cmp(&rest),
        (_, 0) => Ordering::Greater,
        (rest, other) => by_division((of_b, other), (of_a, rest)),
    })
}

/// What drawn additions and comparisons came to.
#[derive(Debug, Default)]
pub struct Seen {
    /// Additions taken, and refused with 7 and 15.
    added: [usize; 3],
    /// Comparisons by their order.
    orders: [usize; 3],
    /// Comparisons refused with 7 and 15.
    refused: [usize; 2],
}

impl Seen {
    /// Draws an addition and holds it against the request's words.
    pub fn check_addition(
        &mut self,
        random: &mut Random,
        add: impl Fn(&[u64], &[u8], u32) -> Added,
    ) {
        let (wear, (marks, answer)) = (draw::numbers(random), draw::result(random));
        let no_result = !(4..=4_194_304).contains(&marks.len())
            || marks.iter().any(|&mark| mark > 4)
            || ![0, 11, 12].contains(&answer);
        let full = || wear[0] == 1_000_000;
        let refusal = refusal(&wear).or_else(|| (no_result || full()).then_some(15));
        let mut due = wear.clone();
        if refusal.is_none() {
            for (number, more) in due.iter_mut().zip(wear_of(&[(&marks, answer)])) {
                *number += more;
            }
        }
        let given = add(&wear, &marks, answer);
        assert_eq!(given, (refusal.unwrap_or(0), due), "{wear:?}, {answer}");
        self.added[which(given.0, [0, 7, 15])] += 1;
    }

    /// Draws two reports, mostly near to each other, and holds their comparison
    /// against the request's words.
    pub fn check_comparison(
        &mut self,
        random: &mut Random,
        compare: impl Fn(&[u64], &[u64]) -> Compared,
    ) {
        let whole = draw::report(random);
        let (a, b) = match random.below(4) {
            0 => (draw::numbers(random), draw::numbers(random)),
            1 => (whole.to_vec(), draw::report(random).to_vec()),
            _ => (whole.to_vec(), draw::near(random, &whole).to_vec()),
        };
        let given = compare(&a, &b);
        let refusals = [refusal(&a), refusal(&b)];
        // Of both refusals 7 is the first.
        if let Some(refusal) = refusals.into_iter().flatten().min() {
            assert_eq!(given, (refusal, 0), "{a:?}, {b:?}");
            self.refused[which(refusal, [7, 15])] += 1;
            return;
        }
        let order = match by_division((a[5], a[1]), (b[5], b[1])) {
            Ordering::Equal => 0,
            Ordering::Less => 1,
            Ordering::Greater => 2,
        };
        assert_eq!(given, (0, order), "{a:?}, {b:?}");
        self.orders[order as usize] += 1;
    }

    /// Everything that can come up did so often.
    pub fn expect(&self, least: usize) {
        let all = [&self.added[..], &self.orders, &self.refused].concat();
        assert!(all.iter().all(|&count| count >= least), "{self:?}");
    }
}

/// Where this answer stands among these.
fn which<const N: usize>(answer: u32, answers: [u32; N]) -> usize {
    let place = answers.iter().position(|&of| of == answer);
    place.unwrap_or_else(|| panic!("answer {answer}"))
}

/// Reports of all shares, many of them nearly equal.
pub fn many_reports(random: &mut Random, count: usize) -> Vec<Report> {
    let mut reports: Vec<Report> = vec![EMPTY];
    while reports.len() < count {
        let of = reports[random.below(reports.len())];
        let next = if random.once_in(4) {
            draw::report(random)
        } else {
            draw::near(random, &of)
        };
        reports.push(next);
    }
    reports
}

/// The comparison orders these reports: every two of them, from both sides, and
/// of three what is said of two pairs holds for the third. Gives how many pairs
/// are equal.
pub fn expect_order(reports: &[Report], compare: impl Fn(&[u64], &[u64]) -> Compared) -> usize {
    let compared = |a: &Report| reports.iter().map(|b| compare(a, b)).collect();
    let orders: Vec<Vec<Compared>> = reports.iter().map(compared).collect();
    let not_greater = |i: usize, j: usize| orders[i][j].1 != 2;
    let count = reports.len();
    let mut equal = 0;
    for (i, j) in (0..count * count).map(|n| (n / count, n % count)) {
        let (answer, order) = orders[i][j];
        assert!(answer == 0 && order <= 2, "{i}, {j}");
        assert_eq!(orders[j][i], (0, mirrored(order)), "{i}, {j}");
        assert!(i != j || order == 0, "{i} with itself");
        equal += usize::from(order == 0);
        for k in (0..count).filter(|&k| not_greater(i, j) && not_greater(j, k)) {
            assert!(not_greater(i, k), "{i}, {j}, {k}");
            // Smaller by one step is smaller by both.
            let smaller = order == 1 || orders[j][k].1 == 1;
            assert!(!smaller || orders[i][k].1 == 1, "{i}, {j}, {k}");
        }
    }
    equal
}
