//! The story that the README tells: a show is made, hurt, checked, repaired and
//! compared.

use std::fs;

use crate::support::shows::example;
use crate::support::{Folder, captions};

#[test]
fn a_show_is_made_hurt_checked_repaired_and_compared() {
    let folder = Folder::new();
    let run = |words: &str| captions(words).within(folder.path());
    let made = run("make -o show.store").with(example("hamlet.txt")).run();
    assert_eq!(
        made.whole(),
        "show.store: 35 captions in 6 rows and 6 columns, 3388 bytes\n"
    );

    let hurt = run("hurt show.store -o hurt.store --bits 40 --seed 5")
        .run()
        .whole();
    assert!(
        hurt.starts_with("hurt.store: 40 bits turned over in "),
        "{hurt}"
    );
    assert_ne!(folder.read("hurt.store"), folder.read("show.store"));

    let checked = run("check hurt.store").run().whole();
    assert!(checked.contains("every caption is whole"), "{checked}");
    let clean = checked.contains("\n  clean     36 ");
    assert!(!clean, "some captions had to be mended: {checked}");

    run("repair hurt.store -o repaired.store").run().whole();
    assert_eq!(folder.read("repaired.store"), folder.read("show.store"));

    let text = fs::read_to_string(example("hamlet.txt")).expect("the text");
    assert_eq!(run("show repaired.store").run().whole(), text);
    assert_eq!(
        run("show hurt.store").run().whole(),
        text,
        "repaired in memory"
    );
    assert_eq!(
        folder.names(),
        ["hurt.store", "repaired.store", "show.store"]
    );
}

/// The lines of the README's story that stand apart: commands, and what they print.
fn told() -> Vec<String> {
    let readme = example("").join("../README.md");
    let readme = fs::read_to_string(readme).expect("the README");
    let section = readme.split("\n## ").nth(1).expect("a first section");
    let lines = section.lines().filter_map(|line| line.strip_prefix("    "));
    lines.map(str::to_string).collect()
}

#[test]
fn as_the_readme_tells_it() {
    let folder = Folder::new();
    std::os::unix::fs::symlink(example(""), folder.at("examples")).expect("a link");
    let mut printed = String::new();
    let (mut commands, mut shown) = (0, 0);
    for line in told() {
        let words: Vec<&str> = line.split_whitespace().collect();
        if let Some(call) = line.strip_prefix("bin/captions ") {
            commands += 1;
            printed += &captions(call).within(folder.path()).run().whole();
        } else if let ["cmp", one, other, ..] = words[..] {
            commands += 1;
            assert_eq!(folder.read(one), folder.read(other), "{line}");
        } else if line != ".ci/run" {
            shown += 1;
            let is_there = printed.lines().any(|printed| printed == line);
            assert!(is_there, "{line:?} is not in\n{printed}");
        }
    }
    assert!(
        commands >= 6 && shown >= 10,
        "{commands} commands, {shown} lines"
    );
}

#[test]
fn the_small_stores_have_their_reports() {
    for name in ["clean", "hurt", "lost", "misplaced", "parity"] {
        let path = example(name);
        let report = fs::read_to_string(path.with_extension("report")).expect("a report");
        let run = captions("check --no-picture").with(path.with_extension("store"));
        let ran = run.run();
        let whole = report.ends_with("answer 0\n");
        assert_eq!(ran.status, i32::from(!whole), "{name}");
        // Word by word what storecheck reports, apart from its first line.
        for line in report.lines().skip(1) {
            let starts = |told: &str| {
                let words: Vec<&str> = told.split_whitespace().take(2).collect();
                words.join(" ") == line
            };
            assert!(ran.text().lines().any(starts), "{line}: {}", ran.text());
        }
    }
}
