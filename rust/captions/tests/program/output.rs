//! Standard output that is full, goes away, or is the null device.

use std::io::Write;
use std::process::Stdio;

use crate::support::run::shell;
use crate::support::shows::{hamlet_store, with_lost};
use crate::support::{Folder, Ran, captions};

/// Calls that print something.
const PRINTING: [&str; 16] = [
    "--help",
    "--version",
    "help make",
    "check --help",
    "check a.store",
    "check a.store --json",
    "check a.store --svg new",
    "repair a.store -o new",
    "repair a.store -o -",
    "make text -o new",
    "make text -o -",
    "show a.store",
    "show a.store 3",
    "wear a.store",
    "forecast a.store",
    "hurt a.store -o - --bits 3",
];

fn folder() -> Folder {
    let folder = Folder::new();
    folder.write("a.store", hamlet_store().file());
    folder.write("text", "one\ntwo\n");
    folder
}

fn told(ran: &Ran, call: &str) {
    assert_eq!(ran.status, 1, "{call}: {}", ran.err);
    assert_eq!(ran.text(), "", "{call}");
    let told = ran.err.contains("captions: standard output: ");
    assert!(told, "{call}: {:?}", ran.err);
}

#[test]
fn full() {
    let folder = folder();
    for call in PRINTING {
        let run = shell("exec \"$@\" >/dev/full").words(call);
        told(&run.within(folder.path()).run(), call);
    }
}

#[test]
fn closed() {
    // The launcher tells it. Without it what is printed goes nowhere, and no file
    // that is opened takes the output's place.
    let folder = folder();
    let store = folder.read("a.store");
    for call in PRINTING {
        let run = shell("exec \"$@\" >&-").words(call);
        let ran = run.within(folder.path()).run();
        assert!(ran.status <= 1 && ran.out.is_empty(), "{call}: {}", ran.err);
        assert_eq!(folder.read("a.store"), store, "{call}");
        if call == "repair a.store -o new" {
            assert_eq!(folder.read("new"), store, "no words among its bytes");
        }
    }
}

#[test]
fn the_null_device() {
    // Opened to write alone, as by a shell, and to read too, as by Python.
    let folder = folder();
    for call in PRINTING {
        for output in [">/dev/null", "1<>/dev/null"] {
            let run = shell(&format!("exec \"$@\" {output}")).words(call);
            let ran = run.within(folder.path()).run();
            assert_eq!(ran.status, 0, "{call} {output}: {}", ran.err);
        }
    }
}

#[test]
fn another_name_of_standard_output() {
    // As with -o -, the words go to standard error, and none among the bytes.
    let folder = folder();
    let made = captions("make text -o -").within(folder.path()).run().out;
    let calls = [
        ("make text -o", made),
        ("repair a.store -o", folder.read("a.store")),
    ];
    for (call, expected) in calls {
        for line in [
            "exec \"$@\" /dev/stdout",
            "exec \"$@\" /dev/fd/1",
            "\"$@\" /dev/stdout | cat",
            "\"$@\" /dev/stdout >new; cat new; rm new",
            "\"$@\" new >new; cat new; rm new",
            "echo >new; \"$@\" /dev/stdout >>new; tail -c +2 new; rm new",
        ] {
            let run = shell(line).words(call).within(folder.path());
            let ran = run.run();
            assert_eq!(
                (ran.status, &ran.out),
                (0, &expected),
                "{line}: {}",
                ran.err
            );
            let words = ran.err.contains("rows and ");
            assert!(words, "{line}: {}", ran.err);
        }
    }
    assert_eq!(folder.names(), ["a.store", "text"]);
}

#[test]
fn a_closed_standard_error_does_no_harm() {
    let folder = folder();
    for (call, status) in [("check a.store", 0), ("check none", 1), ("nonsense", 2)] {
        for line in ["exec \"$@\" 2>&-", "exec \"$@\" 2>/dev/full"] {
            let run = shell(line).words(call).within(folder.path());
            assert_eq!(run.run().status, status, "{call}");
        }
    }
}

#[test]
fn a_closed_standard_input_is_told() {
    for call in ["check -", "show -", "make - -o new"] {
        let folder = folder();
        let run = shell("exec \"$@\" <&-").words(call).within(folder.path());
        assert_eq!(run.run().status, 1, "{call}");
        assert_eq!(folder.names(), ["a.store", "text"]);
    }
}

/// Runs the program on a store from standard input while nobody reads its output.
fn unread(call: &str) -> Ran {
    let folder = folder();
    let run = captions(call).within(folder.path());
    let mut child = run.start(Stdio::piped());
    // The reader goes away before the program has anything to write.
    drop(child.stdout.take());
    let mut pipe = child.stdin.take().expect("a pipe");
    pipe.write_all(&with_lost(16, 16).file())
        .expect("the program reads");
    drop(pipe);
    let output = child.wait_with_output().expect("the program ends");
    Ran::of(&output)
}

#[test]
fn a_reader_that_goes_away_ends_it_quietly() {
    for call in [
        "check -",
        "check - --json",
        "check - --color always",
        "show -",
        "show - 200",
        "wear -",
        "forecast -",
        "repair - -o -",
        "repair - -o new",
    ] {
        // A child that another test starts at this moment may hold the reading end
        // until it runs its own program: then once more.
        let ended = (0..5).any(|_| {
            let ran = unread(call);
            let told = ran.err.contains("standard output") || ran.err.contains("pipe");
            assert!(!told, "{call}: {}", ran.err);
            ran.status == 1
        });
        assert!(ended, "{call}");
    }
}
