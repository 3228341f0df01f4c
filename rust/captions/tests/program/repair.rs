//! `captions repair`.

use std::collections::BTreeMap;
use std::fs;
use std::os::unix::fs::{PermissionsExt, symlink};

use reference::answer;
use reference::random::Random;

use crate::forecast::faulty;
use crate::support::printed::report;
use crate::support::shows::{drawn, hamlet_store, in_disagreement, play, with_lost};
use crate::support::{Checked, Folder, Ran, captions};
use crate::{cases, seed};

/// Runs the program on `a.store`, which holds this store.
fn repaired(folder: &Folder, file: &[u8], arguments: &str) -> Ran {
    folder.write("a.store", file);
    let run = captions("repair a.store").words(arguments);
    run.within(folder.path()).run()
}

/// Whether the words on standard output are the report without a picture; with
/// answer 12 a warning goes with it.
fn words_agree(ran: &Ran, expected: &Checked) {
    assert_eq!(ran.status, expected.status(), "{}", ran.err);
    let report = report(ran.text());
    report.agrees("a.store", expected);
    assert!(report.picture.is_empty(), "{:?}", report.picture);
    if expected.answer() == answer::DIFFERS {
        assert_eq!(ran.err, warning(expected), "{}", ran.text());
    } else {
        assert_eq!(ran.err, "");
    }
}

/// The words of answer 12. Whether some parity line can't be read is the second
/// implementation's to say.
fn warning(expected: &Checked) -> String {
    let store = &expected.store;
    let tables = [&store.row_table, &store.column_table];
    let afresh = tables.iter().any(|table| faulty(table).contains(&1));
    let start = "captions: new.store: warning:";
    let mut words = format!("{start} no caption is to be trusted: lines and parity disagree\n");
    if afresh {
        words += &format!(
            "{start} parity lines that could not be read were made afresh from these lines: \
             keep a.store\n"
        );
    }
    words
}

#[test]
fn drawn_stores_to_a_new_file_and_in_place() {
    let mut random = Random::new(seed());
    let mut answers = BTreeMap::new();
    let folder = Folder::new();
    for i in 0..cases(150) {
        let sides = [(2, 2), (2, 7), (5, 4), (4, 4), (3, 3), (16, 16)]
            [[i % 5, 5][usize::from(i % 16 == 0)]];
        let store = drawn(&mut random, sides);
        let file = store.file();
        let expected = Checked::of(store);

        let ran = repaired(&folder, &file, "-o new.store");
        words_agree(&ran, &expected);
        assert_eq!(folder.read("new.store"), expected.new_file());
        assert_eq!(folder.read("a.store"), file, "the input stays");

        let ran = repaired(&folder, &file, "--in-place");
        if expected.answer() == answer::DIFFERS {
            not_replaced(&folder, ran, &file);
        } else {
            words_agree(&ran, &expected);
            assert_eq!(folder.read("a.store"), expected.new_file());
        }
        assert_eq!(folder.names(), ["a.store", "new.store"]);
        *answers.entry(expected.answer()).or_insert(0) += 1;
    }
    println!("captions repair: stores for each answer: {answers:?}");
    assert!(
        answers
            .keys()
            .eq(&[answer::DONE, answer::LEFT, answer::DIFFERS])
    );
}

#[test]
fn a_repaired_store_is_whole() {
    let folder = Folder::new();
    let mut hurt = hamlet_store();
    hurt.hurt(3, &[1, 2]);
    hurt.hurt(20, &[500]);
    hurt.hurt_row_parity(4, &[9, 10, 11]);
    assert_eq!(repaired(&folder, &hurt.file(), "-o b").status, 0);
    assert_eq!(folder.read("b"), hamlet_store().file(), "byte for byte");
    let printed = captions("check b").within(folder.path()).run().whole();
    assert!(printed.contains("every caption is whole"));
}

#[test]
fn what_is_lost_is_listed_and_the_rest_is_written() {
    let folder = Folder::new();
    let store = with_lost(4, 4);
    let ran = repaired(&folder, &store.file(), "-o new.store");
    assert_eq!(ran.status, 1);
    let lost = report(ran.text()).lost.expect("a list");
    assert_eq!(lost.len(), 4);
    assert_eq!(folder.read("new.store"), store.file());
}

#[test]
fn a_store_in_disagreement_is_written_with_a_warning() {
    let folder = Folder::new();
    let store = in_disagreement(3, 3);
    let ran = repaired(&folder, &store.file(), "-o new.store");
    assert_eq!(ran.status, 1);
    assert_eq!(
        ran.err,
        "captions: new.store: warning: no caption is to be trusted: lines and parity disagree\n"
    );
    let written = folder.read("new.store");
    assert_eq!(written, store.file(), "parity lines stay as they were read");
}

/// Whether a store in disagreement was left where it is.
fn not_replaced(folder: &Folder, ran: Ran, file: &[u8]) {
    let message = ran.refused();
    let start = "captions: a.store: answer 12: lines and parity disagree";
    assert!(message.starts_with(start), "{message}");
    assert!(message.contains("use -o NEW and keep this file"));
    assert_eq!(folder.read("a.store"), file, "nothing is written");
}

#[test]
fn a_store_in_disagreement_is_not_replaced() {
    let folder = Folder::new();
    let file = in_disagreement(3, 3).file();
    let ran = repaired(&folder, &file, "--in-place");
    not_replaced(&folder, ran, &file);
    assert_eq!(folder.names(), ["a.store"]);
}

#[test]
fn parity_lines_made_afresh_are_told() {
    let folder = Folder::new();
    let mut store = in_disagreement(3, 3);
    // Of row 2, in which all is well.
    store.hurt_row_parity(2, &[1, 2]);
    let ran = repaired(&folder, &store.file(), "-o new.store");
    assert_eq!(ran.status, 1);
    assert_eq!(ran.err.lines().count(), 2, "{}", ran.err);
    let expected = Checked::of(store.clone());
    assert_eq!(ran.err, warning(&expected));
    let written = folder.read("new.store");
    assert_eq!(written, in_disagreement(3, 3).file());

    let ran = captions("repair - -o new.store").input(&store.file());
    let ran = ran.within(folder.path()).run();
    assert!(ran.err.ends_with(": keep what was read\n"), "{}", ran.err);
}

#[test]
fn never_over_the_input() {
    let folder = Folder::new();
    let file = with_lost(4, 4).file();
    folder.write("a.store", &file);
    fs::hard_link(folder.at("a.store"), folder.at("hard")).expect("a link");
    symlink("a.store", folder.at("soft")).expect("a link");
    fs::create_dir(folder.at("sub")).expect("a folder");
    let whole = folder.at("a.store").to_string_lossy().into_owned();
    for name in [
        "a.store",
        "./a.store",
        "sub/../a.store",
        "hard",
        "soft",
        &whole,
    ] {
        let ran = repaired(&folder, &file, &format!("-o {name}"));
        let message = ran.called_wrongly();
        assert!(message.contains("--in-place"), "{message}");
        assert_eq!(folder.read("a.store"), file, "{name}");
    }
    // The input by another name, and the output by its own.
    let run = captions("repair soft -o a.store").within(folder.path());
    assert!(run.run().called_wrongly().contains("--in-place"));
    assert_eq!(folder.read("a.store"), file);
    assert_eq!(folder.names(), ["a.store", "hard", "soft", "sub"]);
}

#[test]
fn neither_or_both_ways_is_a_wrong_call() {
    let folder = Folder::new();
    let file = play(2, 2).file();
    for arguments in ["", "-o b --in-place", "--in-place --in-place", "-o b -o b"] {
        repaired(&folder, &file, arguments).called_wrongly();
    }
    captions("repair - --in-place")
        .input(&file)
        .run()
        .called_wrongly();
    assert_eq!(folder.names(), ["a.store"]);
}

#[test]
fn standard_input_and_output() {
    let mut store = play(3, 3);
    store.hurt(4, &[1, 2, 3]);
    let expected = Checked::of(store.clone());
    let ran = captions("repair - -o -").input(&store.file()).run();
    assert_eq!(ran.status, 0, "{}", ran.err);
    assert_eq!(ran.out, expected.new_file());
    // The words go to standard error.
    let head = report(&ran.err).head;
    assert_eq!(head[1..], expected.head("")[1..]);
}

#[test]
fn a_link_is_followed_and_permissions_are_kept() {
    let folder = Folder::new();
    let mut store = play(2, 3);
    let whole = store.file();
    store.hurt(0, &[5]);
    folder.write("a.store", store.file());
    let mode = fs::Permissions::from_mode(0o640);
    fs::set_permissions(folder.at("a.store"), mode).expect("permissions");
    symlink("a.store", folder.at("link")).expect("a link");
    let run = captions("repair link --in-place").within(folder.path());
    run.run().whole();
    assert_eq!(folder.read("a.store"), whole);
    assert!(folder.at("link").is_symlink(), "still a link");
    let metadata = fs::metadata(folder.at("a.store")).expect("a file");
    assert_eq!(metadata.permissions().mode() & 0o777, 0o640);
    assert_eq!(folder.names(), ["a.store", "link"]);
}
