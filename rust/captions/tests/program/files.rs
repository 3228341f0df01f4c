//! Files of every kind: cut off, foreign, missing, folders, pipes, endless.

use std::fs;
use std::process::Command;

use reference::draw::Store;

use crate::support::run::frugal;
use crate::support::shows::{hamlet_store, play};
use crate::support::text::numbers;
use crate::support::{Folder, Ran, captions};

/// A call of each subcommand that reads a store, `FILE` standing for it.
const CALLS: [&str; 11] = [
    "check FILE",
    "check FILE --no-picture",
    "check FILE --json",
    "check FILE --svg new",
    "repair FILE -o new",
    "show FILE",
    "show FILE 0",
    "wear FILE",
    "wear FILE --save new2",
    "forecast FILE",
    "hurt FILE -o new --bits 1",
];

fn called(folder: &Folder, call: &str, name: &str) -> Ran {
    let run = captions(&call.replace("FILE", name));
    run.within(folder.path()).run()
}

/// Whether every subcommand refuses this file, named so, and writes nothing.
fn refused_by_all(folder: &Folder, name: &str) {
    let before = folder.names();
    for call in CALLS
        .into_iter()
        .chain(["change FILE 0 x", "repair FILE --in-place"])
    {
        let ran = called(folder, call, name);
        assert_eq!(ran.status, 1, "{call}: {}", ran.err);
        let told = format!("captions: {name}: ");
        let json = call.contains("--json");
        assert!(json || ran.err.contains(&told), "{call}: {}", ran.err);
        if !["check", "wear"].contains(&call.split(' ').next().unwrap_or_default()) {
            assert_eq!(ran.text(), "", "{call}");
        }
        if call.ends_with("--save new2") && folder.at("new2").exists() {
            // A report of no stores.
            fs::remove_file(folder.at("new2")).expect("it is there");
        }
        assert_eq!(folder.names(), before, "{call}");
    }
}

#[test]
fn good_files() {
    let folder = Folder::new();
    let file = hamlet_store().file();
    folder.write("a.store", &file);
    for call in CALLS {
        let ran = called(&folder, call, "a.store");
        assert_eq!((ran.status, ran.err.as_str()), (0, ""), "{call}");
        assert_eq!(folder.read("a.store"), file, "{call}");
    }
}

#[test]
fn refused_files() {
    let good = hamlet_store().file();
    let mut other_contents = good.clone();
    other_contents[4] ^= 1;
    let mut sides = good.clone();
    sides[0..2].copy_from_slice(&513_u16.to_le_bytes());
    let mut one_row = good.clone();
    one_row[0] = 1;
    let image = [&b"\x89PNG\r\n\x1A\n"[..], &[0; 200]].concat();
    let files: [(&str, Vec<u8>, u32); 13] = [
        ("empty", vec![], 1),
        ("short", good[..27].to_vec(), 1),
        ("header", good[..28].to_vec(), 4),
        ("cut", good[..1000].to_vec(), 4),
        ("cut1", good[..good.len() - 1].to_vec(), 4),
        ("longer", [&good[..], &[0]].concat(), 4),
        ("twice", [&good[..], &good].concat(), 4),
        ("contents", other_contents, 4),
        ("sides", sides, 2),
        ("row", one_row, 2),
        (
            "text",
            b"To be, or not to be, that is the question".to_vec(),
            2,
        ),
        ("image", image, 2),
        ("zeros", vec![0; 5000], 2),
    ];
    for (name, bytes, answer) in files {
        assert_eq!(reference::check_file(&bytes).answer, answer, "{name}");
        let folder = Folder::new();
        folder.write(name, &bytes);
        refused_by_all(&folder, name);
        let ran = called(&folder, "check FILE", name);
        let told = format!("captions: {name}: answer {answer}: ");
        assert!(ran.err.starts_with(&told), "{}", ran.err);
        assert_eq!(folder.read(name), bytes);
    }
}

#[test]
fn what_is_wrong_is_said_in_numbers() {
    let folder = Folder::new();
    let good = hamlet_store().file();
    let told = |name: &str, bytes: &[u8]| {
        folder.write(name, bytes);
        let ran = called(&folder, "check FILE", name);
        numbers(&ran.message().replace(',', ""))
    };
    // The page has this one word by word.
    folder.write("x.store", &good[..1000]);
    assert_eq!(
        called(&folder, "check FILE", "x.store").refused(),
        "captions: x.store: answer 4: cut off: 6 rows and 6 columns take 3388 bytes, \
         the file has 1000\n"
    );
    let short = told("short", &good[..9]);
    assert!([28, 9].iter().all(|n| short.contains(n)), "{short:?}");
    let mut sides = good.clone();
    sides[2..4].copy_from_slice(&1000_u16.to_le_bytes());
    let sides = told("sides", &sides);
    assert!([6, 1000].iter().all(|n| sides.contains(n)), "{sides:?}");
    let long = told("long", &[&good[..], b"more"].concat());
    assert!(long.contains(&3388), "{long:?}");
}

#[test]
fn files_that_are_not_there_or_are_folders() {
    let folder = Folder::new();
    refused_by_all(&folder, "none.store");
    refused_by_all(&folder, "no/such/folder.store");
    fs::create_dir(folder.at("folder")).expect("a folder");
    refused_by_all(&folder, "folder");
    std::os::unix::fs::symlink("nowhere", folder.at("link")).expect("a link");
    refused_by_all(&folder, "link");
    // A file that opens, and then can't be read.
    refused_by_all(&folder, "/proc/self/mem");
}

#[test]
fn a_text_that_is_not_there_or_is_a_folder() {
    let folder = Folder::new();
    fs::create_dir(folder.at("folder")).expect("a folder");
    for name in ["none.txt", "folder", "/proc/self/mem"] {
        let message = called(&folder, "make FILE -o new", name).refused();
        let told = format!("captions: {name}: ");
        assert!(message.starts_with(&told), "{message}");
        assert_eq!(folder.names(), ["folder"]);
    }
}

#[test]
fn one_bad_file_does_not_keep_the_others_from_being_checked() {
    let folder = Folder::new();
    folder.write("a.store", play(2, 2).file());
    folder.write("b.store", play(3, 3).file());
    let run = captions("check none a.store folder b.store --no-picture");
    let ran = run.within(folder.path()).run();
    assert_eq!(ran.status, 1);
    assert!(
        ran.text()
            .contains("a.store: 2 rows and 2 columns, 4 captions\n")
    );
    assert!(
        ran.text()
            .contains("b.store: 3 rows and 3 columns, 9 captions\n")
    );
    assert!(ran.err.contains("captions: none: ") && ran.err.contains("captions: folder: "));
}

#[test]
fn standard_input() {
    let store = hamlet_store();
    let folder = Folder::new();
    for call in CALLS {
        let run = captions(&call.replace("FILE", "-")).within(folder.path());
        let ran = run.input(&store.file()).run();
        assert_eq!((ran.status, ran.err.as_str()), (0, ""), "{call}");

        let run = captions(&call.replace("FILE", "-")).within(folder.path());
        let ran = run.input(&store.file()[..200]).run();
        assert_eq!(ran.status, 1, "{call}");
    }
}

/// Whether an input that never ends was refused with this answer, and not because
/// memory came to an end.
fn seen_enough(ran: &Ran, answer: u32, call: &str) {
    assert_eq!(ran.status, 1, "{call}");
    assert!(!ran.err.contains("memory"), "{call}: {}", ran.err);
    if call.starts_with("check") {
        let told = format!("answer {answer}: ");
        assert!(ran.err.contains(&told), "{call}: {}", ran.err);
    }
}

#[test]
fn input_without_end() {
    // Nothing that is not needed is read.
    let good = play(2, 2).file();
    for call in CALLS {
        let folder = Folder::new();
        let run = |file: &str| frugal(&call.replace("FILE", file)).within(folder.path());
        seen_enough(&run("-").run_endless(&good), 4, call);
        seen_enough(&run("-").run_endless(&[0; 4096]), 2, call);
        seen_enough(&run("/dev/zero").run(), 2, call);
    }
}

#[test]
fn a_pipe_with_a_name() {
    let folder = Folder::new();
    let made = Command::new("mkfifo").arg(folder.at("pipe")).status();
    assert!(made.expect("mkfifo runs").success());
    let file = play(3, 3).file();
    let path = folder.at("pipe");
    let writing = std::thread::spawn(move || fs::write(path, file));
    let text = called(&folder, "show FILE", "pipe").whole();
    writing.join().expect("it ends").expect("it is written");
    assert_eq!(text.lines().count(), 9);
}

#[test]
fn an_emptied_store_is_a_store() {
    let folder = Folder::new();
    folder.write("a.store", Store::zero(2, 2).file());
    let text = called(&folder, "check FILE", "a.store").whole();
    assert!(text.contains("every caption is whole"));
}
