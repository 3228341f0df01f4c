//! `captions change`.

use std::collections::BTreeMap;

use reference::draw::Store;
use reference::random::Random;
use reference::{Change, answer};

use crate::support::run::shell;
use crate::support::shows::{drawn, hamlet_store, play};
use crate::support::text::{HIDDEN, data_of};
use crate::support::{Folder, Ran, captions};
use crate::{cases, seed};

/// What the second implementation makes of a change: the file after it, or the
/// refusal.
pub fn changed(store: &Store, n: usize, text: &str) -> Result<Vec<u8>, Change> {
    let mut new = store.clone();
    let change = reference::change_line(
        new.rows,
        new.columns,
        &mut new.lines,
        &mut new.row_table,
        &mut new.column_table,
        n,
        &data_of(text),
    );
    match change.answer {
        answer::DONE => Ok(new.file()),
        _ => Err(change),
    }
}

fn change(folder: &Folder, n: usize, text: &str) -> Ran {
    let run = captions("change a.store").with(n.to_string()).with(text);
    run.within(folder.path()).run()
}

/// Changes a store by the program and by the second implementation; gives the
/// answer.
fn compared(folder: &Folder, store: &Store, n: usize, text: &str) -> u32 {
    let file = store.file();
    folder.write("a.store", &file);
    let ran = change(folder, n, text);
    let answer = match changed(store, n, text) {
        Ok(new) => {
            let cue = n + 1;
            let expected = format!("a.store: caption {n} (cue {cue}): \"{text}\"\n");
            assert_eq!(ran.whole(), expected);
            assert_eq!(folder.read("a.store"), new);
            answer::DONE
        }
        Err(refusal) => {
            assert!(ran.refused().starts_with("captions: a.store: "));
            assert_eq!(folder.read("a.store"), file, "nothing is written");
            refusal.answer
        }
    };
    assert_eq!(folder.names(), ["a.store"]);
    answer
}

#[test]
fn one_caption_is_written_anew() {
    let folder = Folder::new();
    let mut texts = crate::support::shows::hamlet();
    for (n, text) in [(5, "No more."), (0, ""), (34, "’—ä😀"), (35, "The end")] {
        folder.write("a.store", crate::support::shows::show(6, 6, &texts).file());
        let printed = change(&folder, n, text).whole();
        let cue = n + 1;
        assert_eq!(
            printed,
            format!("a.store: caption {n} (cue {cue}): \"{text}\"\n")
        );
        texts.resize(36, String::new());
        texts[n] = text.to_string();
        let expected = crate::support::shows::show(6, 6, &texts).file();
        assert_eq!(folder.read("a.store"), expected, "tables and all");
    }
}

#[test]
fn drawn_stores() {
    let mut random = Random::new(seed());
    let folder = Folder::new();
    let mut answers = BTreeMap::new();
    for i in 0..cases(250) {
        let sides = [(2, 2), (2, 7), (4, 4), (5, 3), (3, 9)][i % 5];
        let store = drawn(&mut random, sides);
        let n = random.below(store.count() + 1);
        let text = random.pick(&["", "x", "Ay, there’s the rub:"]);
        let answer = compared(&folder, &store, n, text.copied().unwrap_or(""));
        *answers.entry(answer).or_insert(0) += 1;
    }
    println!("captions change: {answers:?}");
    for answer in [
        answer::DONE,
        answer::NUMBER,
        answer::FAULTY,
        answer::ROW_PARITY,
        answer::COLUMN_PARITY,
    ] {
        assert!(answers.contains_key(&answer), "answer {answer} comes up");
    }
}

#[test]
fn what_to_do_where_a_parity_line_or_the_caption_is_damaged() {
    let folder = Folder::new();
    let mut of_row = play(4, 4);
    of_row.hurt_row_parity(1, &[3]);
    let mut of_column = play(4, 4);
    of_column.hurt_column_parity(2, &[3, 4]);
    for store in [of_row, of_column] {
        folder.write("a.store", store.file());
        let message = change(&folder, 6, "new").refused();
        assert!(message.contains("parity"), "{message}");
        assert!(
            message.contains("captions repair a.store --in-place"),
            "{message}"
        );
        let repair = captions("repair a.store --in-place").within(folder.path());
        assert_eq!(repair.run().status, 0);
        change(&folder, 6, "new").whole();
    }
    let mut faulty = play(4, 4);
    faulty.hurt(6, &[1, 2]);
    folder.write("a.store", faulty.file());
    let message = change(&folder, 6, "new").refused();
    assert!(message.contains("captions repair"), "{message}");
}

#[test]
fn the_advice_can_be_pasted_into_a_shell() {
    let mut store = play(2, 2);
    store.hurt_row_parity(0, &[3]);
    for name in [
        "two words.store",
        "-dash.store",
        "it's $HOME;`x`",
        "plain.store",
    ] {
        let folder = Folder::new();
        folder.write(name, store.file());
        let run = captions("change --").with(name).words("1 new");
        let message = run.within(folder.path()).run().refused();
        let advice = message.split_once(": run captions ").expect("advice").1;
        let advice = advice.strip_suffix(" first\n").expect("its end");
        let run = shell(&format!("exec \"$@\" {advice}")).within(folder.path());
        assert_eq!(run.run().status, 0, "{advice}");
        assert_eq!(folder.read(name), play(2, 2).file(), "{advice}");
    }
}

#[test]
fn the_same_limits_as_make() {
    let folder = Folder::new();
    let file = hamlet_store().file();
    folder.write("a.store", &file);
    let long = "x".repeat(65);
    let message = change(&folder, 1, &long).refused();
    assert!(message.contains("65"), "{message}");
    let controls = ["a\nb", "\x1B[2J", "a\x07", "\u{9B}", "a\rb"];
    for text in controls {
        let message = change(&folder, 1, text).refused();
        assert!(!message.contains(['\x1B', '\x07', '\u{9B}']), "{message:?}");
    }
    for hidden in HIDDEN {
        let message = change(&folder, 1, &format!("a{hidden}b")).refused();
        assert!(!message.contains(hidden), "{message:?}");
    }
    use std::os::unix::ffi::OsStrExt;
    let bytes = std::ffi::OsStr::from_bytes(b"caf\xE9");
    let run = captions("change a.store 1")
        .with(bytes)
        .within(folder.path());
    run.run().refused();
    assert_eq!(folder.read("a.store"), file);
    assert_eq!(folder.names(), ["a.store"]);

    change(&folder, 1, &long[1..]).whole();
    change(&folder, 1, "a\tb").whole();
    let shown = captions("show a.store 1").within(folder.path()).run();
    assert_eq!(shown.whole(), "a b\n");
}

#[test]
fn a_text_that_starts_with_a_hyphen() {
    let folder = Folder::new();
    folder.write("a.store", play(2, 2).file());
    change(&folder, 1, "-- Never.").called_wrongly();
    for (text, call) in [
        ("-- Never.", "change a.store 1 --"),
        ("-o", "change -- a.store 1"),
        ("--", "change a.store -- 1"),
    ] {
        let run = captions(call).with(text).within(folder.path());
        let printed = run.run().whole();
        assert_eq!(printed, format!("a.store: caption 1 (cue 2): \"{text}\"\n"));
    }
}

#[test]
fn beyond_the_store() {
    let folder = Folder::new();
    let file = play(3, 4).file();
    folder.write("a.store", &file);
    let message = change(&folder, 12, "x").refused();
    assert!(message.contains("11"), "the greatest number: {message}");
    assert_eq!(folder.read("a.store"), file);
}
