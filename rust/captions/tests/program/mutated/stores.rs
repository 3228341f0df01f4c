//! Spoilt store files.

use std::sync::LazyLock;

use reference::random::Random;
use reference::{PLACES, answer, mark};

use super::{draw, left, many, told};
use crate::change::changed;
use crate::forecast;
use crate::hurt::Difference;
use crate::seed;
use crate::show::{one_of, text_of};
use crate::support::json::Value;
use crate::support::printed::report;
use crate::support::xml::Element;
use crate::support::{Checked, Folder, Ran, captions};

/// A spoilt file, and the store in it where the second implementation opens it.
struct Spoilt {
    file: Vec<u8>,
    opened: Result<Checked, u32>,
}

/// The files, drawn once for all tests.
static SPOILT: LazyLock<Vec<Spoilt>> = LazyLock::new(|| {
    let mut random = Random::new(seed());
    let mut spoilt = || {
        let file = draw::store_file(&mut random);
        let opened = Checked::opened(&file);
        Spoilt { file, opened }
    };
    (0..many()).map(|_| spoilt()).collect()
});

/// Runs the program on each file, which stands in `a.store`, and hands over what
/// came of it.
fn each(arguments: impl Fn(usize) -> String, look: impl Fn(usize, &Spoilt, &Folder, &Ran)) {
    let folder = Folder::new();
    for (i, spoilt) in SPOILT.iter().enumerate() {
        folder.write("a.store", &spoilt.file);
        let ran = captions(&arguments(i)).within(folder.path()).run();
        look(i, spoilt, &folder, &ran);
        if folder.at("new").exists() {
            std::fs::remove_file(folder.at("new")).expect("it is there");
        }
    }
}

/// The same where a file that isn't opened is refused and tells so, and the store
/// is not changed.
fn each_opened(
    arguments: impl Fn(usize) -> String,
    writes: bool,
    look: impl Fn(usize, &Checked, &Folder, &Ran),
) {
    each(arguments, |i, spoilt, folder, ran| match &spoilt.opened {
        Err(_) => {
            told(folder, ran);
            left(folder, &["a.store"], &spoilt.file, ran);
        }
        Ok(checked) => {
            look(i, checked, folder, ran);
            let names = if writes {
                &["a.store", "new"][..]
            } else {
                &["a.store"]
            };
            left(folder, names, &spoilt.file, ran);
        }
    });
}

#[test]
fn as_many_of_each_kind_as_needed() {
    let with = |answer: u32| {
        let is_it = |spoilt: &&Spoilt| match &spoilt.opened {
            Ok(checked) => checked.answer() == answer,
            Err(refusal) => *refusal == answer,
        };
        SPOILT.iter().filter(is_it).count()
    };
    let kinds = [
        answer::DONE,
        answer::SHORT_FILE,
        answer::SIDES,
        answer::CONTENTS,
        answer::LEFT,
        answer::DIFFERS,
    ];
    let counts = kinds.map(|answer| (answer, with(answer)));
    println!(
        "mutated: {} store files, for each answer {counts:?}",
        SPOILT.len()
    );
    assert!(
        counts.iter().all(|(_, count)| *count > SPOILT.len() / 100),
        "{counts:?}"
    );
}

#[test]
fn check() {
    each(
        |_| "check a.store".to_string(),
        |_, spoilt, folder, ran| {
            let whole = matches!(&spoilt.opened, Ok(checked) if checked.status() == 0);
            assert_eq!(ran.status, i32::from(!whole), "{}", ran.err);
            match &spoilt.opened {
                Ok(checked) => {
                    report(ran.text()).agrees("a.store", checked);
                    assert_eq!(ran.err, "");
                }
                Err(refusal) => {
                    let told = format!("captions: a.store: answer {refusal}: ");
                    assert!(ran.err.starts_with(&told), "{}", ran.err);
                }
            }
            left(folder, &["a.store"], &spoilt.file, ran);
        },
    );
}

#[test]
fn check_as_json() {
    each(
        |_| "check a.store --json".to_string(),
        |_, spoilt, folder, ran| {
            let object = &Value::printed(ran.text())[0];
            let answer = match &spoilt.opened {
                Ok(checked) => {
                    crate::check::json::agrees(object, "a.store", checked);
                    checked.answer()
                }
                Err(refusal) => *refusal,
            };
            assert_eq!(object.at("answer").number(), u64::from(answer));
            assert_eq!(ran.status, i32::from(answer != answer::DONE));
            left(folder, &["a.store"], &spoilt.file, ran);
        },
    );
}

#[test]
fn check_with_a_drawing() {
    each_opened(
        |_| "check a.store --no-picture --svg new".to_string(),
        true,
        |_, checked, folder, ran| {
            assert_eq!(ran.status, checked.status());
            let text = String::from_utf8(folder.read("new")).expect("text");
            let root = Element::read(&text).expect("well-formed");
            let titles = root.named("title").into_iter();
            let cells = titles.filter(|title| title.text.starts_with("caption "));
            let hurt = checked.store.count() - checked.count(mark::CLEAN);
            assert_eq!(cells.count(), hurt);
        },
    );
}

#[test]
fn repair() {
    each_opened(
        |_| "repair a.store -o new".to_string(),
        true,
        |_, checked, folder, ran| {
            assert_eq!(ran.status, checked.status());
            assert_eq!(folder.read("new"), checked.new_file());
        },
    );
}

#[test]
fn repair_in_place() {
    each(
        |_| "repair a.store --in-place".to_string(),
        |_, spoilt, folder, ran| match &spoilt.opened {
            Ok(checked) if checked.answer() == answer::DIFFERS => {
                told(folder, ran);
                left(folder, &["a.store"], &spoilt.file, ran);
            }
            Ok(checked) => {
                assert_eq!(ran.status, checked.status());
                left(folder, &["a.store"], &checked.new_file(), ran);
            }
            Err(_) => {
                told(folder, ran);
                left(folder, &["a.store"], &spoilt.file, ran);
            }
        },
    );
}

#[test]
fn show() {
    each_opened(
        |_| "show a.store".to_string(),
        false,
        |_, checked, _, ran| {
            assert_eq!(ran.status, checked.status());
            assert_eq!(ran.text(), text_of(checked));
        },
    );
}

#[test]
fn show_one() {
    let number = |i: usize| 7 * i % 27;
    each_opened(
        |i| format!("show a.store {}", number(i)),
        false,
        |i, checked, folder, ran| match one_of(&checked.store, number(i)) {
            Some(text) => assert_eq!((ran.status, ran.text()), (0, format!("{text}\n").as_str())),
            None => {
                told(folder, ran);
                assert_eq!(ran.text(), "");
            }
        },
    );
}

#[test]
fn change() {
    let number = |i: usize| 5 * i % 26;
    each(
        |i| format!("change a.store {} new", number(i)),
        |i, spoilt, folder, ran| {
            let new = match &spoilt.opened {
                Ok(checked) => changed(&checked.store, number(i), "new").ok(),
                Err(_) => None,
            };
            match new {
                Some(new) => {
                    assert_eq!((ran.status, ran.err.as_str()), (0, ""));
                    left(folder, &["a.store"], &new, ran);
                }
                None => {
                    told(folder, ran);
                    left(folder, &["a.store"], &spoilt.file, ran);
                }
            }
        },
    );
}

#[test]
fn wear() {
    each(
        |_| "wear a.store --save new".to_string(),
        |_, spoilt, folder, ran| {
            assert_eq!(folder.read("a.store"), spoilt.file);
            let answer = spoilt.opened.as_ref().map(Checked::answer);
            assert_eq!(ran.status, i32::from(answer != Ok(answer::DONE)));
            match &spoilt.opened {
                Ok(checked) => {
                    let text = String::from_utf8(folder.read("new")).expect("text");
                    let count = checked.store.count();
                    assert!(text.starts_with(&format!("1 {count} ")), "{text}");
                }
                Err(_) => assert!(ran.message().contains("a.store")),
            }
            assert!(folder.names().len() <= 2);
        },
    );
}

#[test]
fn forecasts() {
    each_opened(
        |_| "forecast a.store".to_string(),
        false,
        |_, checked, _, ran| {
            let expected = forecast::expected(&checked.store);
            expected.agrees("a.store", checked.store.count(), ran.text());
            assert_eq!(ran.status, expected.status(), "{}", ran.text());
        },
    );
}

#[test]
fn hurt() {
    // Up to 13,825 bits; a 2 by 2 store has 4,424 places.
    let bits = |i: usize| 1 + 553 * (i % 26);
    let more = |i: usize| if i.is_multiple_of(2) { "--cluster" } else { "" };
    each(
        |i| {
            format!(
                "hurt a.store -o new --bits {} --seed {i} {}",
                bits(i),
                more(i)
            )
        },
        |i, spoilt, folder, ran| match &spoilt.opened {
            Ok(checked) => {
                let (rows, columns) = checked.store.sides();
                let most = PLACES * (rows * columns + rows + columns);
                if bits(i) > most {
                    assert_eq!(ran.status, 2, "{}", ran.err);
                    left(folder, &["a.store"], &spoilt.file, ran);
                    return;
                }
                assert_eq!((ran.status, ran.err.as_str()), (0, ""));
                left(folder, &["a.store", "new"], &spoilt.file, ran);
                let difference = Difference::between(&spoilt.file, &folder.read("new"));
                assert_eq!(difference.bits(), bits(i));
            }
            Err(_) => {
                told(folder, ran);
                left(folder, &["a.store"], &spoilt.file, ran);
            }
        },
    );
}
