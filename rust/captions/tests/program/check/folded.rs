//! The picture's characters and where its rows are folded.

use reference::draw::Store;

use super::with_every_mark;
use crate::support::picture::{CHARACTERS, Picture};
use crate::support::printed::report;
use crate::support::run::Run;
use crate::support::shows::play;
use crate::support::{Checked, Folder, captions};

/// The picture that a run of `check` on this store draws.
fn picture(store: &Store, changed: impl FnOnce(Run) -> Run) -> (Checked, Picture) {
    let folder = Folder::new();
    let path = folder.write("a.store", store.file());
    let expected = Checked::of(store.clone());
    let ran = changed(captions("check").with(path)).run();
    assert_eq!((ran.status, ran.err.as_str()), (expected.status(), ""));
    let picture = report(ran.text()).pictured(&expected);
    (expected, picture)
}

#[test]
fn a_row_that_is_too_wide_is_folded() {
    let store = with_every_mark(5, 120);
    for width in [20, 21, 40, 79, 80, 100, 123, 124, 125, 126, 200] {
        let (expected, picture) = picture(&store, |run| run.set("COLUMNS", &width.to_string()));
        picture.agrees(&expected, CHARACTERS);
        assert!(picture.widest <= width, "{} of {width}", picture.widest);
        // Whole tens may stand in a line, but no less than fits.
        let room = width - picture.indents[0];
        let least = 120_usize.div_ceil(room);
        let most = 120_usize.div_ceil(room - room % 10);
        let folded = picture.indents.len() / 5;
        assert!((least..=most).contains(&folded), "width {width}");
    }
}

#[test]
fn eighty_characters_where_nothing_tells_the_width() {
    let store = with_every_mark(5, 300);
    for columns in [None, Some(""), Some("wide"), Some("-5"), Some("80")] {
        let (expected, picture) = picture(&store, |run| match columns {
            Some(columns) => run.set("COLUMNS", columns),
            None => run,
        });
        picture.agrees(&expected, CHARACTERS);
        let widest = picture.widest;
        assert!((71..=80).contains(&widest), "{widest} for {columns:?}");
    }
}

#[test]
fn a_terminal_without_room() {
    let store = with_every_mark(5, 20);
    for width in ["0", "1", "2", "5", "99999999999999999999"] {
        let (expected, picture) = picture(&store, |run| run.set("COLUMNS", width));
        picture.agrees(&expected, CHARACTERS);
    }
}

#[test]
fn many_rows_are_indented_alike() {
    let store = play(120, 3);
    let (expected, picture) = picture(&store, |run| run);
    picture.agrees(&expected, CHARACTERS);
}

#[test]
fn characters_of_the_locale() {
    let store = with_every_mark(5, 6);
    let plain = ['.', 'a', 't', 'r', 'X'];
    let expect = |variables: &[(&str, &str)], characters| {
        let (expected, picture) = picture(&store, |run| {
            let run = run.unset("LC_ALL");
            variables
                .iter()
                .fold(run, |run, (name, value)| run.set(name, value))
        });
        picture.agrees(&expected, characters);
    };
    expect(&[], plain);
    expect(&[("LANG", "C")], plain);
    expect(&[("LANG", "en_US.UTF-8")], CHARACTERS);
    expect(&[("LANG", "de_DE.utf8")], CHARACTERS);
    expect(&[("LC_CTYPE", "C.UTF-8"), ("LANG", "C")], CHARACTERS);
    expect(&[("LC_CTYPE", "POSIX"), ("LANG", "en_US.UTF-8")], plain);
    expect(&[("LC_ALL", "C"), ("LC_CTYPE", "en_US.UTF-8")], plain);
    expect(&[("LC_ALL", ""), ("LC_CTYPE", "en_US.UTF-8")], CHARACTERS);
    expect(
        &[("LC_ALL", "en_US.ISO-8859-1"), ("LANG", "en_US.UTF-8")],
        plain,
    );
}
