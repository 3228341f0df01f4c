//! Plain texts.

use reference::random::Random;

use super::{made, make};
use crate::support::shows::{example, hamlet, hamlet_store, show};
use crate::support::{Folder, captions};
use crate::{cases, seed};

#[test]
fn the_example_text() {
    let folder = Folder::new();
    let run = captions("make")
        .with(example("hamlet.txt"))
        .words("-o show.store");
    let printed = run.within(folder.path()).run().whole();
    let bytes = 28 + 70 * (36 + 6 + 6);
    assert_eq!(
        printed,
        format!("show.store: 35 captions in 6 rows and 6 columns, {bytes} bytes\n")
    );
    assert_eq!(folder.names(), ["show.store"]);
    assert_eq!(folder.read("show.store"), hamlet_store().file());
}

#[test]
fn the_example_text_is_fit_for_a_store() {
    let hamlet = hamlet();
    assert!((30..=36).contains(&hamlet.len()));
    assert!(hamlet.iter().all(|line| (1..=64).contains(&line.len())));
    assert!(hamlet.iter().any(|line| !line.is_ascii()));
}

#[test]
fn a_caption_for_each_line() {
    let expect = |text: &str, captions: &[&str]| {
        let store = show(2, 2, captions).file();
        assert_eq!(made("text.txt", text, ""), store, "{text:?}");
    };
    expect("one\ntwo\n", &["one", "two"]);
    expect("one\ntwo", &["one", "two"]);
    expect("one\r\ntwo\r\n", &["one", "two"]);
    expect("\u{FEFF}one\ntwo\n", &["one", "two"]);
    expect("\u{FEFF}one\r\n\r\nthree", &["one", "", "three"]);
    expect("\n\none\n", &["", "", "one"]);
    expect("one\n\n\nfour\n", &["one", "", "", "four"]);
    expect("a\tb\n\t\n", &["a b", " "]);
    expect("  spaces stay  \n", &["  spaces stay  "]);
    expect("x", &["x"]);
    // A joiner and a replacement character are text.
    expect("a\u{200D}b\n\u{FFFD}\n", &["a\u{200D}b", "\u{FFFD}"]);
}

#[test]
fn a_caption_of_64_bytes_fits() {
    let long = "x".repeat(64);
    assert_eq!(
        made("t", format!("{long}\n"), ""),
        show(2, 2, &[long]).file()
    );
    let marks = "’".repeat(21) + "!";
    assert_eq!(marks.len(), 64);
    assert_eq!(made("t", &marks, ""), show(2, 2, &[marks]).file());
    // What isn't kept doesn't count.
    let marked = format!("\u{FEFF}{}\r\n", "y".repeat(64));
    assert_eq!(made("t", marked, ""), show(2, 2, &["y".repeat(64)]).file());
}

/// A drawn line of text: up to 64 bytes of characters of one to four bytes.
fn line(random: &mut Random) -> String {
    let alphabet: Vec<char> = "abc XYZ.,!?\"'\\<>&[](){}$%0129äß’—日本語😀\u{301}\u{200D}"
        .chars()
        .collect();
    let most = random.below(65);
    let mut line = String::new();
    while let Some(next) = random.pick(&alphabet) {
        if line.len() + next.len_utf8() > most {
            break;
        }
        line.push(*next);
    }
    line
}

#[test]
fn drawn_texts_come_back() {
    let mut random = Random::new(seed());
    for _ in 0..cases(60) {
        let count = random.between(1, 30);
        let mut lines: Vec<String> = (0..count).map(|_| line(&mut random)).collect();
        lines.push("the end".to_string());
        let folder = Folder::new();
        let text = lines.join("\n") + "\n";
        let (rows, columns) = super::sides::near_square(lines.len());
        let printed = make(&folder, "text", &text, "").whole();
        let expected = show(rows, columns, &lines).file();
        let count = lines.len();
        assert_eq!(
            printed,
            format!(
                "new.store: {count} captions in {rows} rows and {columns} columns, {} bytes\n",
                expected.len()
            )
        );
        assert_eq!(folder.read("new.store"), expected, "{text:?}");
        let shown = captions("show new.store").within(folder.path()).run();
        assert_eq!(shown.whole(), text);
    }
}

#[test]
fn from_standard_input_to_standard_output() {
    let ran = captions("make - -o -").input(b"one\ntwo\n").run();
    assert_eq!(ran.status, 0, "{}", ran.err);
    assert_eq!(ran.out, show(2, 2, &["one", "two"]).file());
    assert!(ran.err.contains("2 captions in 2 rows and 2 columns"));
}

#[test]
fn over_an_older_store() {
    let folder = Folder::new();
    folder.write("new.store", "old");
    make(&folder, "text", "one\n", "").whole();
    assert_eq!(folder.read("new.store"), show(2, 2, &["one"]).file());
    assert_eq!(folder.names().len(), 2);
}

#[test]
fn every_option_in_every_place() {
    let expected = show(2, 3, &["one"]).file();
    for call in [
        "make text -o new.store --rows 2 --columns 3",
        "make --rows=2 -o new.store --columns=3 text",
        "make -onew.store --columns 3 --rows 2 text",
        "make --output new.store --columns=3 --rows 2 text",
        "make --rows 2 --columns 3 --output=new.store -- text",
    ] {
        let folder = Folder::new();
        folder.write("text", "one\n");
        captions(call).within(folder.path()).run().whole();
        assert_eq!(folder.read("new.store"), expected, "{call}");
    }
}
