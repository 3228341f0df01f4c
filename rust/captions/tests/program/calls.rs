//! Wrong calls, and calls for help.

use crate::support::shows::play;
use crate::support::{Folder, captions};

const SUBCOMMANDS: [&str; 8] = [
    "make", "check", "repair", "show", "change", "wear", "forecast", "hurt",
];

#[test]
fn no_arguments() {
    let ran = captions("").run();
    assert_eq!((ran.status, ran.text()), (2, ""));
    for subcommand in SUBCOMMANDS {
        assert!(ran.err.contains(subcommand), "{}", ran.err);
    }
}

#[test]
fn help_for_all() {
    let text = captions("--help").run().whole();
    for subcommand in SUBCOMMANDS {
        let call = format!("captions {subcommand} ");
        assert!(text.contains(&call), "{subcommand}: {text}");
    }
    assert_eq!(captions("help").run().whole(), text);
}

#[test]
fn help_for_each() {
    let options: [&[&str]; 8] = [
        &["-o", "--rows", "--columns"],
        &["--json", "--svg", "--no-picture", "--color"],
        &["-o", "--in-place"],
        &[],
        &[],
        &["--save", "--load"],
        &[],
        &["-o", "--bits", "--seed", "--cluster"],
    ];
    for (subcommand, options) in SUBCOMMANDS.into_iter().zip(options) {
        let text = captions(subcommand).with("--help").run().whole();
        assert!(text.contains(&format!("captions {subcommand}")), "{text}");
        for option in options {
            assert!(text.contains(option), "{subcommand} {option}: {text}");
        }
        assert!(
            text.lines().all(|line| line.chars().count() <= 100),
            "{text}"
        );
        let other = captions("help").with(subcommand).run().whole();
        assert_eq!(other, text);
        // Whatever else is given.
        let among = captions(subcommand).words("none.store --help");
        assert_eq!(among.run().whole(), text);
    }
    captions("help nonsense").run().called_wrongly();
}

#[test]
fn version() {
    let text = captions("--version").run().whole();
    let expected = format!("captions {}\n", env!("CARGO_PKG_VERSION"));
    assert_eq!(text, expected);
}

/// Calls that are wrong, each in one way.
const WRONG: [&str; 66] = [
    "nonsense",
    "-x",
    "--json check a.store",
    "Check a.store",
    "check",
    "check --json",
    "check a.store --nonsense",
    "check a.store -x",
    "check a.store --json --json",
    "check a.store --json=1",
    "check a.store --svg",
    "check a.store --svg a --svg b",
    "check a.store --color",
    "check a.store --color blue",
    "check a.store --color=",
    "check a.store --color always --color always",
    "check a.store --no-picture --no-picture",
    "check a.store -o b",
    "check a.store --in-place",
    "make",
    "make a.store",
    "make -o b",
    "make a.store b.store -o b",
    "make a.store -o",
    "make a.store -o b --output b",
    "make a.store -o b --rows 4 --rows 4",
    "make a.store -o b --json",
    "make a.store -o b --bits 3",
    "repair",
    "repair a.store b.store -o c",
    "repair -o b",
    "repair a.store -o b --json",
    "repair a.store --in-place=yes",
    "show",
    "show a.store x",
    "show a.store 1 2",
    "show a.store -1",
    "show a.store 1.5",
    "show a.store --json",
    "change",
    "change a.store",
    "change a.store 1",
    "change a.store x text",
    "change a.store -1 text",
    "change a.store 1 to be",
    "change a.store 1 text -o b",
    "wear",
    "wear --save b",
    "wear a.store --save",
    "wear a.store --load",
    "wear a.store --save b --save b",
    "wear a.store --json",
    "forecast",
    "forecast a.store a.store",
    "forecast a.store --json",
    "hurt",
    "hurt --bits 1 -o b",
    "hurt a.store a.store --bits 1 -o b",
    "--help x",
    "-h --help",
    "--version x",
    "help check x",
    "make a.store -o=b",
    "make a.store -o=",
    "repair a.store -o=b",
    "hurt a.store -o=b --bits 1",
];

#[test]
fn wrong_calls() {
    let folder = Folder::new();
    let file = play(2, 2).file();
    for call in WRONG {
        folder.write("a.store", &file);
        let ran = captions(call).within(folder.path()).run();
        assert_eq!(ran.status, 2, "{call}: {}", ran.err);
        ran.called_wrongly();
        assert_eq!(folder.names(), ["a.store"], "{call}");
        assert_eq!(folder.read("a.store"), file, "{call}");
    }
}

#[test]
fn a_wrong_call_names_what_is_wrong() {
    for (call, named) in [
        ("nonsense", "nonsense"),
        ("check a --nonsense", "--nonsense"),
        ("check a --color blue", "blue"),
        ("make a -o b --rows many", "many"),
        ("show a one", "one"),
        ("hurt a -o b", "--bits"),
        ("make a", "-o"),
        ("hurt a -o b --bits 1 --seed x7", "x7"),
        ("--help x7", "x7"),
        ("--version x7", "x7"),
        ("make a -o=b", "-o takes its file as -o FILE"),
    ] {
        let message = captions(call).run().called_wrongly();
        assert!(message.contains(named), "{call}: {message}");
        let subcommand = call.split(' ').next().unwrap_or_default();
        let help = format!("captions {subcommand} --help explains");
        let general = "captions --help explains";
        let known = SUBCOMMANDS.contains(&subcommand);
        assert!(
            message.contains(if known { &help } else { general }),
            "{message}"
        );
    }
}

#[test]
fn an_empty_word_names_no_file() {
    let folder = Folder::new();
    folder.write("a.store", play(2, 2).file());
    for call in [
        "check",
        "check a.store",
        "check a.store --svg",
        "show",
        "forecast",
        "wear",
        "wear a.store --save",
        "wear a.store --load",
        "make -o b",
        "make a.store -o",
        "repair -o b",
        "repair --in-place",
        "repair a.store -o",
        "hurt -o b --bits 1",
        "hurt a.store --bits 1 -o",
    ] {
        let message = captions(call).with("").within(folder.path()).run();
        let message = message.called_wrongly();
        assert!(message.contains("is empty"), "{call}: {message}");
        assert_eq!(folder.names(), ["a.store"], "{call}");
    }
    let run = captions("change").with("").words("1 x");
    let message = run.within(folder.path()).run().called_wrongly();
    assert!(message.contains("is empty"), "{message}");
}

#[test]
fn arguments_that_are_no_text() {
    use std::os::unix::ffi::OsStrExt;
    let odd = std::ffi::OsStr::from_bytes(b"--caf\xE9\x1B[2J");
    for call in ["", "check", "make", "show a.store", "hurt a.store"] {
        let message = captions(call).with(odd).run().called_wrongly();
        assert!(!message.contains('\x1B'), "{message:?}");
    }
}
