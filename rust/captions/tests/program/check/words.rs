//! The report in words.

use std::collections::BTreeMap;

use reference::answer;
use reference::draw::Store;
use reference::mark;

use super::stores;
use crate::support::picture::CHARACTERS;
use crate::support::printed::{report, reports};
use crate::support::shows::{hamlet_store, in_disagreement, play, with_lost};
use crate::support::{Checked, Folder, captions};

#[test]
fn a_whole_store() {
    let folder = Folder::new();
    folder.write("show.store", hamlet_store().file());
    let run = captions("check show.store --no-picture");
    let text = run.within(folder.path()).run().whole();
    // By hand, from the page.
    let expected = [
        "show.store: 6 rows and 6 columns, 36 captions",
        "clean 36 correct as found",
        "alone 0 one damaged bit or Hamming bits: rewritten by itself",
        "trial 0 mended by trial against a row or column",
        "rebuilt 0 rebuilt from the rest of a row or column",
        "faulty 0 lost",
        "passes 0",
        "answer 0 every caption is whole",
    ];
    let report = report(&text);
    assert_eq!(report.head, expected);
    assert!(report.picture.is_empty() && report.lost.is_none(), "{text}");
}

/// What the program prints for this store, which it has to call by its name.
fn checked(folder: &Folder, store: &Store) -> (Checked, String) {
    let expected = Checked::of(store.clone());
    let bytes = store.file();
    folder.write("a.store", &bytes);
    let ran = captions("check a.store").within(folder.path()).run();
    assert_eq!(ran.status, expected.status(), "{}", ran.err);
    assert_eq!(ran.err, "");
    assert_eq!(folder.names(), ["a.store"]);
    assert_eq!(folder.read("a.store"), bytes, "the store is as it was");
    (expected, ran.text().to_string())
}

#[test]
fn drawn_stores() {
    let folder = Folder::new();
    let mut answers = BTreeMap::new();
    for store in stores() {
        let (expected, text) = checked(&folder, &store);
        let report = report(&text);
        report.agrees("a.store", &expected);
        report.pictured(&expected).agrees(&expected, CHARACTERS);
        *answers.entry(expected.answer()).or_insert(0) += 1;
    }
    println!("captions check: stores for each answer: {answers:?}");
    assert!(
        answers
            .keys()
            .eq(&[answer::DONE, answer::LEFT, answer::DIFFERS])
    );
}

#[test]
fn lost_captions_by_number_cue_row_and_column() {
    let (expected, text) = checked(&Folder::new(), &with_lost(4, 4));
    assert_eq!(expected.answer(), answer::LEFT);
    let lost = report(&text).lost.expect("a list of lost captions");
    // By hand: rows 0 and 1, columns 0 and 1; lines 2 and 3 of the play come
    // before the second row.
    let after = "Or to take arms against a sea of troubles,";
    assert_eq!(
        lost,
        [
            "  caption 0 (cue 1), row 0, column 0".to_string(),
            "  caption 1 (cue 2), row 0, column 1".to_string(),
            format!("  caption 4 (cue 5), row 1, column 0, after \"{after}\""),
            format!("  caption 5 (cue 6), row 1, column 1, after \"{after}\""),
        ]
    );
}

#[test]
fn empty_captions_are_not_named_as_the_ones_before() {
    let mut captions = vec![""; 16];
    captions[1] = "the only one";
    let mut store = crate::support::shows::show(4, 4, &captions);
    for (k, n) in [5, 6, 9, 10].into_iter().enumerate() {
        store.hurt(n, &[17 * k, 90 + 17 * k, 200, 333, 444]);
    }
    let (expected, text) = checked(&Folder::new(), &store);
    let lost = report(&text).lost.expect("a list of lost captions");
    assert_eq!(expected.count(mark::FAULTY), 4);
    for line in &lost {
        assert!(line.ends_with(", after \"the only one\""), "{line}");
    }
}

#[test]
fn spaces_at_the_end_of_the_one_before_are_dropped() {
    let mut captions = vec!["first  "; 16];
    captions[8] = "   ";
    let mut store = crate::support::shows::show(4, 4, &captions);
    for (k, n) in [5, 6, 9, 10].into_iter().enumerate() {
        store.hurt(n, &[17 * k, 90 + 17 * k, 200, 333, 444]);
    }
    let (_, text) = checked(&Folder::new(), &store);
    let lost = report(&text).lost.expect("a list of lost captions");
    assert_eq!(lost.len(), 4);
    // Caption 8 is nothing but spaces.
    for line in &lost {
        assert!(line.ends_with(", after \"first\""), "{line}");
    }
}

#[test]
fn lines_and_parity_that_disagree() {
    let (expected, text) = checked(&Folder::new(), &in_disagreement(3, 3));
    assert_eq!(expected.answer(), answer::DIFFERS);
    let report = report(&text);
    assert_eq!(
        report.head[7],
        "answer 12 lines and parity disagree: trust no caption"
    );
    assert_eq!(report.lost, None);
}

#[test]
fn at_most_a_hundred_lost_captions_are_named() {
    for (side, last) in [
        (10, "  caption 99 (cue 100), row 9, column 9"),
        (16, "  and 156 more"),
    ] {
        let mut store = play(side, side);
        for n in 0..store.count() {
            store.hurt(n, &[3 * n % 500, 3 * n % 500 + 1, 3 * n % 500 + 2]);
        }
        let (expected, text) = checked(&Folder::new(), &store);
        assert_eq!(expected.count(mark::FAULTY), side * side);
        let report = report(&text);
        report.agrees("a.store", &expected);
        let lost = report.lost.expect("lost captions");
        assert_eq!(lost.last().map(String::as_str), Some(last));
    }
}

#[test]
fn several_files() {
    let folder = Folder::new();
    let stores = [
        play(2, 2),
        with_lost(3, 3),
        in_disagreement(2, 4),
        play(4, 2),
    ];
    let mut run = captions("check");
    for (n, store) in stores.iter().enumerate() {
        run = run.with(folder.write(format!("{n}.store"), store.file()));
    }
    let cut = play(6, 6).file();
    run = run.with(folder.write("cut.store", &cut[..1000]));
    let ran = run.run();
    assert_eq!(ran.status, 1);

    let (reports, summary) = reports(ran.text());
    assert_eq!(reports.len(), stores.len());
    for (n, (report, store)) in reports.iter().zip(stores).enumerate() {
        let name = folder.at(format!("{n}.store"));
        let expected = Checked::of(store);
        report.agrees(&name.to_string_lossy(), &expected);
    }
    let expected = "5 stores: 2 whole, 1 with lost captions, 1 in disagreement, 1 refused";
    assert_eq!(summary.as_deref(), Some(expected));
    let message = ran.message();
    assert!(message.contains("cut.store: answer 4: "), "{message}");
    assert!(message.contains("3388") && message.contains("1000"));
}

#[test]
fn a_blank_line_stands_between_files() {
    let folder = Folder::new();
    let path = folder.write("a.store", play(2, 2).file());
    let run = captions("check --no-picture").with(&path).with(&path);
    let text = run.run().whole();
    let blocks: Vec<&str> = text.trim_end().split("\n\n").collect();
    assert!((2..=3).contains(&blocks.len()), "{text}");
    assert_eq!(blocks[0].lines().count(), 8);
    assert!(
        text.ends_with("2 stores: 2 whole, 0 with lost captions, 0 in disagreement, 0 refused\n")
    );
}

#[test]
fn the_greatest_sides() {
    let folder = Folder::new();
    for sides in [(512, 2), (2, 512)] {
        let store = play(sides.0, sides.1);
        let (expected, text) = checked(&folder, &store);
        report(&text).agrees("a.store", &expected);
        report(&text)
            .pictured(&expected)
            .agrees(&expected, CHARACTERS);
    }
}
