//! `--json`.

use super::stores;
use crate::support::expected::{Lost, meaning};
use crate::support::json::Value;
use crate::support::run::shell;
use crate::support::shows::{hamlet_store, play};
use crate::support::text::shown;
use crate::support::{Checked, Folder, captions};

/// The members of a store that was opened.
const NAMES: [&str; 14] = [
    "file", "answer", "meaning", "rows", "columns", "captions", "clean", "alone", "trial",
    "rebuilt", "faulty", "passes", "marks", "lost",
];

/// Whether an object is what the second implementation asks for.
pub fn agrees(object: &Value, name: &str, expected: &Checked) {
    let mut names = object.names();
    names.sort_unstable();
    let mut wanted = NAMES;
    wanted.sort_unstable();
    assert_eq!(names, wanted);

    assert_eq!(object.at("file").text(), name);
    assert_eq!(object.at("meaning").text(), meaning(expected.answer()));
    let counts = NAMES[6..11].iter().zip(0..);
    let of_marks = counts.map(|(name, mark)| (*name, expected.count(mark) as u64));
    let others = [
        ("answer", u64::from(expected.answer())),
        ("rows", expected.store.rows as u64),
        ("columns", expected.store.columns as u64),
        ("captions", expected.store.count() as u64),
        ("passes", expected.repaired.passes),
    ];
    for (name, number) in of_marks.chain(others) {
        assert_eq!(object.at(name).number(), number, "{name}");
    }
    let marks = object.at("marks").values().iter().map(Value::text);
    assert!(marks.eq(expected.digits()), "{:?}", object.at("marks"));
    let lost: Vec<Lost> = object.at("lost").values().iter().map(lost).collect();
    assert_eq!(lost, expected.lost());
}

/// A lost caption as an object tells it.
fn lost(object: &Value) -> Lost {
    assert_eq!(object.names().len(), 5, "{object:?}");
    let number = |name: &str| object.at(name).number() as usize;
    assert_eq!(number("cue"), number("number") + 1);
    let after = match object.at("after") {
        Value::Null => None,
        text => Some(shown(text.text().as_bytes())),
    };
    Lost {
        number: number("number"),
        row: number("row"),
        column: number("column"),
        after,
    }
}

#[test]
fn drawn_stores() {
    let folder = Folder::new();
    for store in stores() {
        let bytes = store.file();
        folder.write("a.store", &bytes);
        let expected = Checked::of(store);
        let run = captions("check --json a.store");
        let ran = run.within(folder.path()).run();
        assert_eq!((ran.status, ran.err.as_str()), (expected.status(), ""));
        let objects = Value::printed(ran.text());
        assert_eq!(objects.len(), 1, "one file, one object");
        agrees(&objects[0], "a.store", &expected);
        assert_eq!(folder.read("a.store"), bytes);
    }
}

#[test]
fn good_bad_and_missing_files() {
    let folder = Folder::new();
    folder.write("good.store", hamlet_store().file());
    folder.write("short.store", [0; 27]);
    folder.write("sides.store", [0; 600]);
    folder.write("long.store", [play(2, 2).file(), vec![0]].concat());
    let run = captions("check --json good.store short.store sides.store long.store no.store .");
    let ran = run.within(folder.path()).run();
    assert_eq!(ran.status, 1);

    let objects = Value::printed(ran.text());
    assert_eq!(objects.len(), 6);
    agrees(&objects[0], "good.store", &Checked::of(hamlet_store()));
    for (object, (name, answer)) in
        objects[1..4]
            .iter()
            .zip([("short.store", 1), ("sides.store", 2), ("long.store", 4)])
    {
        assert_eq!(object.at("file").text(), name);
        assert_eq!(object.at("answer").number(), answer);
        assert_ne!(object.at("meaning").text(), "");
        assert_eq!(object.member("rows"), None);
        assert_eq!(object.member("marks"), None);
    }
    for (object, name) in objects[4..].iter().zip(["no.store", "."]) {
        assert_eq!(object.at("file").text(), name);
        assert_eq!(object.at("answer"), &Value::Null);
        assert_ne!(object.at("error").text(), "");
    }
}

#[test]
fn messages_stand_on_lines_of_their_own() {
    let folder = Folder::new();
    folder.write("a.store", play(2, 2).file());
    let run = shell("exec \"$@\" 2>&1").words("check --json none a.store nor a.store");
    let ran = run.within(folder.path()).run();
    let lines: Vec<&str> = ran.text().lines().collect();
    let starts = [
        "[",
        "captions: none: ",
        "{\"file\":\"none\",",
        ",{\"file\":\"a.store\",",
        "captions: nor: ",
        ",{\"file\":\"nor\",",
        ",{\"file\":\"a.store\",",
        "]",
    ];
    assert_eq!(lines.len(), starts.len(), "{lines:?}");
    for (line, start) in lines.iter().zip(starts) {
        assert!(line.starts_with(start), "{line}");
    }
    let without = |line: &&&str| !line.starts_with("captions: ");
    let json: Vec<&str> = lines.iter().filter(without).copied().collect();
    assert_eq!(Value::printed(&(json.join("\n") + "\n")).len(), 4);
}

#[test]
fn every_lost_caption_is_listed() {
    let mut store = play(16, 16);
    for n in 0..store.count() {
        store.hurt(n, &[n, n + 1, n + 2]);
    }
    let folder = Folder::new();
    folder.write("a.store", store.file());
    let run = captions("check a.store --json").within(folder.path());
    let ran = run.run();
    let objects = Value::printed(ran.text());
    assert_eq!(objects[0].at("lost").values().len(), 256);
    agrees(&objects[0], "a.store", &Checked::of(store));
}

#[test]
fn strings_are_escaped() {
    use std::os::unix::ffi::OsStrExt;
    let folder = Folder::new();
    let names: [(&[u8], &str); 4] = [
        (b"a\"b\\c\nd\te.store", "a\"b\\c\nd\te.store"),
        (b"\x01\x1B[0m\x7F.store", "\u{1}\u{1B}[0m\u{7F}.store"),
        ("ä’😀.store".as_bytes(), "ä’😀.store"),
        (b"caf\xE9.store", "caf\u{FFFD}.store"),
    ];
    for (name, told) in names {
        let name = std::ffi::OsStr::from_bytes(name);
        folder.write(name, play(2, 2).file());
        let run = captions("check --json").with(name).within(folder.path());
        let objects = Value::printed(&run.run().whole());
        assert_eq!(objects[0].at("file").text(), told);
    }
}

#[test]
fn a_caption_before_a_lost_one_with_quotes() {
    let quoted = "He said: \"\\o/\" <&>";
    let mut texts = vec!["x"; 16];
    texts[4] = quoted;
    let mut store = crate::support::shows::show(4, 4, &texts);
    for (k, n) in [5, 6, 9, 10].into_iter().enumerate() {
        store.hurt(n, &[17 * k, 90 + 17 * k, 200, 333, 444]);
    }
    let folder = Folder::new();
    folder.write("a.store", store.file());
    let run = captions("check a.store --json").within(folder.path());
    let objects = Value::printed(run.run().text());
    let lost = objects[0].at("lost").values();
    assert_eq!(lost.len(), 4);
    assert_eq!(lost[0].at("after").text(), quoted);
    assert_eq!(lost[2].at("after").text(), "x");
}
