//! `captions wear`.

use std::cmp::Ordering;

use reference::draw::Store;
use reference::random::Random;
use reference::{answer, mark, order, wear};

use crate::support::expected::MARKS;
use crate::support::run::{Run, shell};
use crate::support::shows::{drawn, hamlet_store, in_disagreement, play, with_lost};
use crate::support::text::{numbers, squeezed};
use crate::support::{Checked, Folder, Ran, captions};
use crate::{cases, seed};

type Report = [u64; wear::NUMBERS];

/// Parts of a whole in percent with two decimals, rounded, halves up; never to an
/// end of the scale but for none and all.
fn percent(part: u64, whole: u64) -> String {
    let rounded = (20_000 * part + whole).checked_div(2 * whole).unwrap_or(0);
    match rounded {
        0 if part > 0 => "<0.01 %".to_string(),
        10_000 if part < whole => ">99.99 %".to_string(),
        _ => format!("{}.{:02} %", rounded / 100, rounded % 100),
    }
}

/// The report of one store.
fn report_of(checked: &Checked) -> Report {
    let mut report = [0; wear::NUMBERS];
    let repaired = &checked.repaired;
    assert_eq!(wear::add(&mut report, &repaired.marks, repaired.answer), 0);
    report
}

/// The sum of reports.
fn sum(reports: &[Report]) -> Report {
    let mut sum = [0; wear::NUMBERS];
    for report in reports {
        for (to, more) in sum.iter_mut().zip(report) {
            *to += more;
        }
    }
    sum
}

/// The number and the bar that stand in the line of each mark.
fn bars(text: &str) -> Vec<(u64, usize)> {
    let row = |word: &str| {
        let of_word = |line: &&str| line.split_whitespace().next() == Some(word);
        let line = text.lines().find(of_word);
        let line = line.unwrap_or_else(|| panic!("no {word} in {text}"));
        let count = numbers(&line.replace(',', ""))[0];
        (count, line.matches(['█', '#']).count())
    };
    MARKS.iter().map(|(word, _)| row(word)).collect()
}

/// Whether the table counts each mark of a report, with a bar of its share of 40.
fn table_agrees(text: &str, report: &Report) {
    let lines = report[1] as f64;
    for ((count, bar), expected) in bars(text).into_iter().zip(&report[2..7]) {
        assert_eq!(count, *expected, "{text}");
        let share = 40.0 * count as f64 / lines.max(1.0);
        match count {
            0 => assert_eq!(bar, 0, "{text}"),
            _ => assert!((1..=40).contains(&bar), "{text}"),
        }
        assert!(
            (bar as f64 - share).abs() <= 1.0,
            "{bar} for {share}: {text}"
        );
    }
}

/// How bad a store is beside others of the same share: answer 12, then 11 by the
/// lost captions, then the others.
fn badness(store: &Checked) -> (bool, usize) {
    match store.answer() {
        answer::DIFFERS => (true, 0),
        answer::LEFT => (false, store.count(mark::FAULTY)),
        _ => (false, 0),
    }
}

/// The lines for the units: most rebuilt first, then the worst, then in the order
/// given.
fn units(names: &[String], stores: &[Checked]) -> Vec<String> {
    let mut units: Vec<(&String, &Checked)> = names.iter().zip(stores).collect();
    units.sort_by(
        |(_, a), (_, b)| match wear::compare(&report_of(a), &report_of(b)) {
            (0, order::GREATER) => Ordering::Less,
            (0, order::SMALLER) => Ordering::Greater,
            (0, order::EQUAL) => badness(b).cmp(&badness(a)),
            other => panic!("{other:?}"),
        },
    );
    let line = |(name, store): (&String, &Checked)| {
        let rebuilt = store.count(mark::REBUILT) as u64;
        let share = percent(rebuilt, store.store.count() as u64);
        let (lost, answer) = (store.count(mark::FAULTY), store.answer());
        format!("{name} {share} rebuilt, {lost} lost, answer {answer}")
    };
    units.into_iter().map(line).collect()
}

fn run_on(folder: &Folder, stores: &[Store], more: &str) -> (Vec<String>, Run) {
    let mut run = captions("wear").words(more).within(folder.path());
    let mut names = Vec::new();
    for (n, store) in stores.iter().enumerate() {
        let name = format!("{n}.store");
        folder.write(&name, store.file());
        run = run.with(&name);
        names.push(name);
    }
    (names, run)
}

/// The ten numbers that a run saved.
fn saved(folder: &Folder) -> Vec<u64> {
    let text = String::from_utf8(folder.read("saved")).expect("text");
    let words = text.split_ascii_whitespace();
    words.map(|word| word.parse().expect("a number")).collect()
}

/// The lines of the units, in order.
fn unit_lines(text: &str) -> Vec<String> {
    let lines = text.lines().map(squeezed);
    lines
        .filter(|line| line.contains(" rebuilt, ") && line.contains(" lost, answer "))
        .collect()
}

#[test]
fn drawn_stores() {
    let mut random = Random::new(seed());
    for _ in 0..cases(25) {
        let folder = Folder::new();
        let count = random.between(1, 9);
        let sides = [(2, 2), (4, 4), (2, 7), (5, 3)];
        let drawn_one = |i: usize| drawn(&mut random, sides[i % 4]);
        let stores: Vec<Store> = (0..count).map(drawn_one).collect();
        let (names, run) = run_on(&folder, &stores, "--save saved");
        let ran = run.run();

        let checked: Vec<Checked> = stores.into_iter().map(Checked::of).collect();
        let reports: Vec<Report> = checked.iter().map(report_of).collect();
        let all = sum(&reports);
        assert_eq!(ran.status, i32::from(all[7] < all[0]), "{}", ran.err);
        assert_eq!(saved(&folder), all);
        table_agrees(ran.text(), &all);
        let expected = if count > 1 {
            units(&names, &checked)
        } else {
            vec![]
        };
        assert_eq!(unit_lines(ran.text()), expected);
        assert_eq!(folder.names().len(), count + 1);
    }
}

#[test]
fn most_rebuilt_first_then_the_worst() {
    let folder = Folder::new();
    let mut rebuilt = play(3, 8);
    rebuilt.hurt(5, &[1, 2]);
    let stores = [
        play(2, 2),
        rebuilt.clone(),
        with_lost(4, 4),
        rebuilt,
        in_disagreement(2, 2),
        play(3, 3),
        lost_rows(),
    ];
    let (_, run) = run_on(&folder, &stores, "");
    let ran = run.run();
    assert_eq!(ran.status, 1);
    // By hand: 1 of 24 lines is rebuilt.
    assert_eq!(
        unit_lines(ran.text()),
        [
            "1.store 4.17 % rebuilt, 0 lost, answer 0",
            "3.store 4.17 % rebuilt, 0 lost, answer 0",
            "4.store 0.00 % rebuilt, 0 lost, answer 12",
            "6.store 0.00 % rebuilt, 6 lost, answer 11",
            "2.store 0.00 % rebuilt, 4 lost, answer 11",
            "0.store 0.00 % rebuilt, 0 lost, answer 0",
            "5.store 0.00 % rebuilt, 0 lost, answer 0",
        ]
    );
    assert!(ran.text().contains("\n\nmost rebuilt first:\n1.store "));
    let all = [7, 4 + 24 + 16 + 24 + 4 + 9 + 16, 85, 0, 0, 2, 10, 4, 2, 1];
    table_agrees(ran.text(), &all);
}

/// A play whose first three columns are lost in two rows.
fn lost_rows() -> Store {
    let mut store = with_lost(4, 4);
    store.hurt(2, &[31, 121, 211, 301, 391]);
    store.hurt(6, &[44, 134, 224, 314, 404]);
    store
}

#[test]
fn nothing_taken_in_has_no_table() {
    let folder = Folder::new();
    folder.write("bad.store", [0; 600]);
    for call in ["wear none.store", "wear none.store bad.store"] {
        captions(call).within(folder.path()).run().refused();
    }
    // A report that was loaded is told.
    folder.write("report", "1 4 2 0 0 1 1 0 1 0");
    let run = captions("wear none.store --load report");
    let ran = run.within(folder.path()).run();
    assert_eq!(ran.status, 1);
    table_agrees(ran.text(), &[1, 4, 2, 0, 0, 1, 1, 0, 1, 0]);
}

#[test]
fn the_table_comes_before_the_report_is_saved() {
    let folder = Folder::new();
    let (_, run) = run_on(&folder, &[play(2, 2)], "--save no/saved");
    let ran = run.run();
    assert_eq!(ran.status, 1);
    assert!(
        ran.message().contains("captions: no/saved: "),
        "{}",
        ran.err
    );
    table_agrees(ran.text(), &[1, 4, 4, 0, 0, 0, 0, 1, 0, 0]);
    // Words that can't be had are no reason to save.
    let run = shell("exec \"$@\" >/dev/full").words("wear 0.store --save saved");
    assert_eq!(run.within(folder.path()).run().status, 1);
    assert_eq!(folder.names(), ["0.store"]);
}

#[test]
fn bars_without_utf_8() {
    let folder = Folder::new();
    let (_, run) = run_on(&folder, &[hamlet_store()], "");
    let text = run.set("LC_ALL", "C").run().whole();
    assert_eq!(text.matches('#').count(), 40, "all lines are clean: {text}");
    assert!(text.is_ascii(), "{text}");
    let (_, run) = run_on(&folder, &[hamlet_store()], "");
    let text = run.run().whole();
    assert_eq!(text.matches('█').count(), 40, "all lines are clean: {text}");
}

#[test]
fn a_saved_report_is_gone_on_with() {
    let folder = Folder::new();
    let (_, run) = run_on(&folder, &[with_lost(4, 4), play(2, 2)], "--save saved");
    assert_eq!(run.run().status, 1);
    let first = [2, 20, 16, 0, 0, 0, 4, 1, 1, 0];
    assert_eq!(saved(&folder), first);

    // What was lost before was told then: only this time's stores count now.
    let (_, run) = run_on(&folder, &[play(3, 3)], "--load saved --save saved");
    let text = run.run().whole();
    let both = [3, 29, 25, 0, 0, 0, 4, 2, 1, 0];
    assert_eq!(saved(&folder), both);
    table_agrees(&text, &both);

    // No store is needed then.
    let run = captions("wear --load saved").within(folder.path());
    let text = run.run().whole();
    table_agrees(&text, &both);
    assert!(unit_lines(&text).is_empty());
}

#[test]
fn reports_as_others_write_them() {
    let folder = Folder::new();
    folder.write("report", "1 4\n2 0 0 1 1\n0 1 0\n");
    let run = captions("wear --load report --save saved");
    let text = run.within(folder.path()).run().whole();
    table_agrees(&text, &[1, 4, 2, 0, 0, 1, 1, 0, 1, 0]);
    assert_eq!(saved(&folder), [1, 4, 2, 0, 0, 1, 1, 0, 1, 0]);
}

#[test]
fn texts_that_are_no_report() {
    let folder = Folder::new();
    folder.write("a.store", play(2, 2).file());
    for text in [
        "",
        "1 4 2 0 0 1 1 0 1",
        "1 4 2 0 0 1 1 0 1 0 0",
        "1 5 2 0 0 1 1 0 1 0",
        "1 4 2 0 0 1 1 0 1 x",
        "1 4 2 0 0 1 1 0 +1 0",
        "1000001 4 2 0 0 1 1 0 1 1000000",
        "18446744073709551616 4 2 0 0 1 1 0 1 0",
        "\u{FEFF}1 4 2 0 0 1 1 0 1 0",
    ] {
        folder.write("report", text);
        for call in [
            "wear --load report",
            "wear a.store --load report --save saved",
        ] {
            let ran = captions(call).within(folder.path()).run();
            let message = ran.refused();
            assert!(message.starts_with("captions: report: "), "{message}");
        }
    }
    folder.write("report", b"\xFF\xFE");
    captions("wear --load report")
        .within(folder.path())
        .run()
        .refused();
    captions("wear --load none")
        .within(folder.path())
        .run()
        .refused();
    assert_eq!(folder.names(), ["a.store", "report"], "nothing is saved");
}

#[test]
fn files_that_cannot_be_taken_in_are_named_and_not_counted() {
    let folder = Folder::new();
    folder.write("good.store", hamlet_store().file());
    folder.write("bad.store", [0; 600]);
    let run = captions("wear bad.store good.store none.store --save saved");
    let ran: Ran = run.within(folder.path()).run();
    assert_eq!(ran.status, 1);
    assert!(ran.err.contains("captions: bad.store: "), "{}", ran.err);
    assert!(ran.err.contains("captions: none.store: "), "{}", ran.err);
    let report = [1, 36, 36, 0, 0, 0, 0, 1, 0, 0];
    table_agrees(ran.text(), &report);
    assert_eq!(saved(&folder), report);
}

#[test]
fn a_report_that_is_full() {
    let folder = Folder::new();
    let full = "1000000 4000000 4000000 0 0 0 0 1000000 0 0";
    folder.write("report", full);
    folder.write("a.store", play(2, 2).file());
    let run = captions("wear a.store --load report --save saved");
    let ran = run.within(folder.path()).run();
    assert_eq!(ran.status, 1);
    assert!(ran.message().contains("a.store"));
    let run = captions("wear --load report").within(folder.path());
    table_agrees(
        &run.run().whole(),
        &[1_000_000, 4_000_000, 4_000_000, 0, 0, 0, 0, 1_000_000, 0, 0],
    );
}
