//! Runs in a terminal, which the command `script` gives where it is installed.

use std::process::Command;

use crate::support::Folder;
use crate::support::run::{PROGRAM, Run, in_terminal};
use crate::support::shows::play;
use crate::support::text::plain;

/// What a line for the shell prints in a terminal, and its exit status; `captions`
/// stands for the program. None where there is no `script`.
fn terminal(
    folder: &Folder,
    line: &str,
    changed: impl FnOnce(Run) -> Run,
) -> Option<(i32, String)> {
    let there = Command::new("script").arg("--version").output().is_ok();
    if !there {
        println!("terminal: there is no script, and so no terminal");
        return None;
    }
    let line = line.replace("captions ", &format!("'{PROGRAM}' "));
    let ran = changed(in_terminal(&line)).within(folder.path()).run();
    let text = String::from_utf8_lossy(&ran.out).replace("\r\n", "\n");
    Some((ran.status, text))
}

fn folder() -> Folder {
    let folder = Folder::new();
    let mut store = play(4, 100);
    store.hurt(7, &[3]);
    folder.write("a.store", store.file());
    folder
}

fn widest(text: &str) -> usize {
    let lines = text.lines().skip(8).map(|line| plain(line).chars().count());
    lines.max().unwrap_or(0)
}

#[test]
fn colours_where_the_terminal_has_them() {
    let folder = folder();
    let check = "captions check a.store";
    let Some((status, text)) = terminal(&folder, check, |run| run) else {
        return;
    };
    assert_eq!(status, 0, "{text}");
    assert!(text.contains("\x1b["), "{text}");
    let without: [(&str, &str, &str); 3] = [
        (check, "NO_COLOR", "1"),
        (check, "TERM", "dumb"),
        ("captions check a.store --color never", "TERM", "xterm"),
    ];
    for (line, name, value) in without {
        let ran = terminal(&folder, line, |run| run.set(name, value));
        let (_, uncoloured) = ran.expect("a terminal");
        assert!(!uncoloured.contains('\x1b'), "{name}: {uncoloured:?}");
        assert_eq!(plain(&text), uncoloured);
    }
}

#[test]
fn rows_are_folded_at_the_width_of_the_terminal() {
    let folder = folder();
    let line = "stty cols 47; captions check a.store";
    let Some((_, text)) = terminal(&folder, line, |run| run) else {
        return;
    };
    assert!((38..=47).contains(&widest(&text)), "{text}");
    let told = terminal(&folder, line, |run| run.set("COLUMNS", "33"));
    let (_, text) = told.expect("a terminal");
    assert!((24..=33).contains(&widest(&text)), "COLUMNS first: {text}");
}

#[test]
fn no_store_is_written_to_a_terminal() {
    let folder = folder();
    for call in [
        "captions repair a.store -o -",
        "captions hurt a.store -o - --bits 3",
        "captions make text -o -",
    ] {
        folder.write("text", "one\n");
        let Some((status, text)) = terminal(&folder, call, |run| run) else {
            return;
        };
        assert_eq!(status, 2, "{call}: {text}");
        assert!(text.starts_with("captions: "), "{call}: {text}");
        assert!(text.len() < 500, "{call}: no bytes of a store");
    }
}

/// Prints the store in pieces, which takes almost two seconds.
const IN_PIECES: &str = "for i in 0 1 2 3 4 5 6 7 8; do \
                         dd if=a.store bs=4000 skip=$i count=1 2>/dev/null; sleep 0.2; done";

#[test]
fn progress_is_shown_after_a_second_and_wiped() {
    let folder = folder();
    let line = format!("({IN_PIECES}) | captions check - --no-picture --color never");
    let Some((status, text)) = terminal(&folder, &line, |run| run) else {
        return;
    };
    assert_eq!(status, 0, "{text:?}");
    let (progress, report) = text.split_once("4 rows and 100 columns").expect("a report");
    assert!(progress.contains("captions: "), "{text:?}");
    assert!(report.contains("every caption is whole"), "{text:?}");
    // Wiped: what stands before the report's first line begins with a return.
    assert!(progress.contains('\r'), "{text:?}");
}

#[test]
fn no_progress_is_shown_where_standard_error_is_no_terminal() {
    let folder = folder();
    let line = format!("({IN_PIECES}) | \"$@\"");
    let run = crate::support::run::shell(&line).words("check - --no-picture");
    let ran = run.within(folder.path()).run();
    assert_eq!((ran.status, ran.err.as_str()), (0, ""));
}
