//! `captions show`.

use reference::draw::Store;
use reference::random::Random;
use reference::{DATA_BYTES, LINE_BYTES, Out, answer};

use crate::support::expected::Lost;
use crate::support::shows::{drawn, hamlet, hamlet_store, in_disagreement, play, show, with_lost};
use crate::support::text::shown;
use crate::support::{Checked, Folder, Ran, captions};
use crate::{cases, seed};

fn shows(folder: &Folder, store: &Store, more: &str) -> Ran {
    let file = store.file();
    folder.write("a.store", &file);
    let run = captions("show a.store").words(more);
    let ran = run.within(folder.path()).run();
    assert_eq!(folder.read("a.store"), file, "the store stays");
    assert_eq!(folder.names(), ["a.store"]);
    ran
}

/// All captions as the page has them: none after the last that isn't empty.
pub fn text_of(expected: &Checked) -> String {
    if expected.answer() == answer::DIFFERS {
        return String::new();
    }
    let mut lines: Vec<String> = Vec::new();
    for (n, caption) in expected.captions().into_iter().enumerate() {
        lines.push(match caption {
            None => format!("[caption {n} (cue {}) is lost]", n + 1),
            Some(text) if text.starts_with("[caption ") => format!("\\{text}"),
            Some(text) => text,
        });
    }
    while lines.last().is_some_and(String::is_empty) {
        lines.pop();
    }
    lines.iter().map(|line| format!("{line}\n")).collect()
}

/// What the second implementation gives for one line wanted: its text, or none
/// where it is lost.
pub fn one_of(store: &Store, n: usize) -> Option<String> {
    let mut line = [0; LINE_BYTES];
    let work = Out {
        lines: &mut vec![0; store.lines.len()],
        marks: &mut vec![0; store.count()],
        row_table: &mut vec![0; store.row_table.len()],
        column_table: &mut vec![0; store.column_table.len()],
    };
    let one = reference::read_one(
        store.rows,
        store.columns,
        &store.lines,
        &store.row_table,
        &store.column_table,
        n,
        work,
        &mut line,
    );
    (one.answer == answer::DONE).then(|| shown(&line[..DATA_BYTES]))
}

#[test]
fn the_text_comes_back() {
    let folder = Folder::new();
    let text = shows(&folder, &hamlet_store(), "").whole();
    assert_eq!(text, hamlet().join("\n") + "\n");
    let whole = shows(&folder, &Store::zero(3, 3), "").whole();
    assert_eq!(whole, "", "nothing but empty captions");
    let some = show(3, 3, &["", "one", "", "three", ""]);
    assert_eq!(shows(&folder, &some, "").whole(), "\none\n\nthree\n");
}

#[test]
fn drawn_stores() {
    let mut random = Random::new(seed());
    let folder = Folder::new();
    for i in 0..cases(120) {
        let sides = [(2, 2), (2, 7), (4, 4), (5, 3), (6, 6)][i % 5];
        let store = drawn(&mut random, sides);
        let expected = Checked::of(store.clone());
        let ran = shows(&folder, &store, "");
        assert_eq!(ran.status, expected.status());
        assert_eq!(ran.text(), text_of(&expected));
        if expected.answer() == answer::DIFFERS {
            assert!(ran.message().contains("a.store"));
        }
    }
}

#[test]
fn lost_captions_are_marked_and_their_bytes_are_not_shown() {
    let store = with_lost(4, 4);
    let ran = shows(&Folder::new(), &store, "");
    assert_eq!(ran.status, 1);
    let text = ran.text().to_string();
    let lines: Vec<&str> = text.lines().collect();
    assert_eq!(lines.len(), 16);
    for n in [0, 1, 4, 5] {
        assert_eq!(lines[n], format!("[caption {n} (cue {}) is lost]", n + 1));
    }
    let play = hamlet();
    for n in [2, 3, 6, 15] {
        assert_eq!(lines[n], play[n]);
    }
}

#[test]
fn a_store_in_disagreement_shows_nothing() {
    let message = shows(&Folder::new(), &in_disagreement(3, 3), "").refused();
    assert!(message.starts_with("captions: a.store: "), "{message}");
}

#[test]
fn a_caption_that_looks_like_a_lost_one() {
    let captions = ["[caption 0 (cue 1) is lost]", "[Enter OPHELIA]", "[caption"];
    let text = shows(&Folder::new(), &show(2, 2, &captions), "").whole();
    assert_eq!(
        text,
        "\\[caption 0 (cue 1) is lost]\n[Enter OPHELIA]\n[caption\n"
    );
}

#[test]
fn hidden_characters_are_shown_by_their_numbers() {
    // Marks of the direction of writing are text, as in Hebrew captions.
    let hebrew = "\u{202B}שלום\u{202C}";
    let texts = [hebrew, "a\u{2028}b", "\u{2029}\u{200F}c", "end  "];
    let text = shows(&Folder::new(), &show(2, 2, &texts), "").whole();
    // By hand; spaces at the end are kept.
    let hidden = "a\\u{2028}b\n\\u{2029}\u{200F}c\nend  \n";
    assert_eq!(text, format!("{hebrew}\n{hidden}"));
}

#[test]
fn nothing_from_a_store_reaches_the_terminal_raw() {
    let mut store = play(2, 2);
    let odd: [&[u8]; 4] = [
        b"\x1B[2Jred\x07",
        b"a\0b\nc\td\x7F",
        b"caf\xE9 \xF0\x9F\x98",
        "ok \u{9B}2J’".as_bytes(),
    ];
    for (n, bytes) in odd.iter().enumerate() {
        let mut data = [0; DATA_BYTES];
        data[..bytes.len()].copy_from_slice(bytes);
        reference::write_line(&data, store.line_mut(n));
    }
    assert_eq!(store.tables_anew(), answer::DONE);
    let text = shows(&Folder::new(), &store, "").whole();
    // By hand.
    let expected = [
        "\\x1B[2Jred\\x07",
        "a\\x00b\\x0Ac\\x09d\\x7F",
        "caf\\xE9 \\xF0\\x9F\\x98",
        "ok \\xC2\\x9B2J’",
    ];
    let lines: Vec<&str> = text.lines().collect();
    assert_eq!(lines, expected);
    let folder = Folder::new();
    for (n, line) in expected.into_iter().enumerate() {
        let one = shows(&folder, &store, &n.to_string()).whole();
        assert_eq!(one, format!("{line}\n"));
    }
}

#[test]
fn one_caption_of_drawn_stores() {
    let mut random = Random::new(seed());
    let folder = Folder::new();
    let mut lost = 0;
    for i in 0..cases(200) {
        let sides = [(2, 2), (2, 7), (4, 4), (5, 3), (3, 9)][i % 5];
        let store = drawn(&mut random, sides);
        let n = random.below(store.count());
        let ran = shows(&folder, &store, &n.to_string());
        match one_of(&store, n) {
            Some(text) => assert_eq!(ran.whole(), format!("{text}\n")),
            None => {
                lost += 1;
                let place = Lost::at(n, sides.1);
                let expected = format!("captions: a.store: {place}, is lost\n");
                assert_eq!(ran.refused(), expected);
            }
        }
    }
    println!("captions show N: {lost} lost");
    assert!(lost > 0);
}

#[test]
fn one_caption_of_a_store_in_disagreement_or_with_others_lost() {
    // Repair would trust no caption, or has lost others: of one line that is not
    // told.
    let folder = Folder::new();
    let play = hamlet();
    let one = shows(&folder, &in_disagreement(3, 3), "4").whole();
    assert_eq!(one, play[4].clone() + "\n");
    let one = shows(&folder, &with_lost(3, 3), "8").whole();
    assert_eq!(one, play[8].clone() + "\n");
}

#[test]
fn a_number_beyond_the_store() {
    let folder = Folder::new();
    for n in ["12", "13", "100000"] {
        let message = shows(&folder, &play(3, 4), n).refused();
        assert!(message.starts_with("captions: a.store: "), "{message}");
        assert!(message.contains("11"), "the greatest number: {message}");
    }
    assert_eq!(shows(&folder, &play(3, 4), "11").status, 0);
}
