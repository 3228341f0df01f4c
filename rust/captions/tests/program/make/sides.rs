//! The sides of a new store.

use super::{made, make, refusal};
use crate::support::shows::show;
use crate::support::text::numbers;
use crate::support::{Folder, captions};

/// The sides for so many captions where none are given: the least columns whose
/// square holds them, the least rows that fit, both at least 2.
pub fn near_square(captions: usize) -> (usize, usize) {
    let columns = (2..).find(|side| side * side >= captions).unwrap_or(2);
    (captions.div_ceil(columns).max(2), columns)
}

fn text(captions: usize) -> String {
    (0..captions).map(|n| format!("caption {n}\n")).collect()
}

/// The sides that a store's header tells.
fn sides(store: &[u8]) -> (usize, usize) {
    let opened = reference::check_file(store);
    assert_eq!(opened.answer, 0);
    (opened.rows, opened.columns)
}

#[test]
fn near_square_where_not_given() {
    // Worked out by hand.
    for (captions, expected) in [
        (1, (2, 2)),
        (4, (2, 2)),
        (5, (2, 3)),
        (6, (2, 3)),
        (7, (3, 3)),
        (10, (3, 4)),
        (12, (3, 4)),
        (13, (4, 4)),
        (35, (6, 6)),
        (37, (6, 7)),
        (256, (16, 16)),
        (257, (16, 17)),
        (1000, (32, 32)),
        (10_000, (100, 100)),
        (10_001, (100, 101)),
    ] {
        assert_eq!(near_square(captions), expected);
        assert_eq!(sides(&made("t", text(captions), "")), expected);
    }
}

#[test]
fn every_count_of_captions() {
    for captions in 1..60 {
        let (rows, columns) = near_square(captions);
        let texts: Vec<String> = text(captions).lines().map(str::to_string).collect();
        let expected = show(rows, columns, &texts).file();
        assert_eq!(made("t", text(captions), ""), expected);
    }
}

#[test]
fn as_given() {
    for (more, expected) in [
        ("--rows 2 --columns 18", (2, 18)),
        ("--rows 512 --columns 2", (512, 2)),
        ("--rows 5 --columns 7", (5, 7)),
        // One alone: the other as small as it fits.
        ("--rows 2", (2, 18)),
        ("--rows 3", (3, 12)),
        ("--columns 35", (2, 35)),
        ("--columns 4", (9, 4)),
        ("--rows 512", (512, 2)),
    ] {
        assert_eq!(sides(&made("t", text(35), more)), expected, "{more}");
    }
}

#[test]
fn too_small_as_given() {
    for (captions, more, fit) in [
        (35, "--rows 2 --columns 17", 34),
        (5, "--rows 2 --columns 2", 4),
        (1025, "--columns 2", 1024),
        (1537, "--rows 3", 1536),
    ] {
        let found = numbers(&refusal("t", text(captions), more));
        assert!(found.contains(&(captions as u64)), "{found:?}");
        assert!(found.contains(&fit), "{found:?}");
    }
}

#[test]
fn outside_2_to_512_is_a_wrong_call() {
    let folder = Folder::new();
    for more in [
        "--rows 1 --columns 50",
        "--rows 50 --columns 1",
        "--rows 0",
        "--columns 513",
        "--rows 513 --columns 2",
        "--rows=65538 --columns=2",
        "--rows 99999999999999999999999 --columns 2",
        "--rows -2 --columns 2",
        "--rows two --columns 2",
        "--columns 2.0",
        "--rows= --columns 2",
    ] {
        make(&folder, "t", text(3), more).called_wrongly();
        assert_eq!(folder.names(), ["t"], "{more}");
    }
}

#[test]
fn the_greatest_store() {
    let folder = Folder::new();
    let most = 512 * 512;
    let printed = make(&folder, "t", text(most), "").whole();
    assert_eq!(
        printed,
        "new.store: 262144 captions in 512 rows and 512 columns, 18421788 bytes\n"
    );
    assert_eq!(folder.read("new.store").len(), 18_421_788);
    let shown = captions("show new.store").within(folder.path()).run();
    assert!(shown.whole() == text(most), "the captions come back");

    let found = numbers(&refusal("t", text(most + 1), ""));
    assert!(found.contains(&262_145), "{found:?}");
    assert!(
        found.contains(&262_144) || found.contains(&512),
        "{found:?}"
    );
}
