//! File names with spaces and odd bytes.

use std::ffi::OsStr;
use std::os::unix::ffi::OsStrExt;

use crate::support::shows::{play, show};
use crate::support::{Folder, captions};

const NAMES: [&[u8]; 9] = [
    b"two words.store",
    b" space first",
    b"-dash.store",
    b"--json",
    b"a=b;c&d|e$f'g\"h",
    b"caf\xE9\xFF.store",
    "’—😀.store".as_bytes(),
    b"new\nline.store",
    b"\x1B[31mred.store",
];

#[test]
fn every_subcommand_takes_every_name() {
    for name in NAMES {
        let name = OsStr::from_bytes(name);
        let folder = Folder::new();
        let file = play(3, 3).file();
        folder.write(name, &file);
        for call in [
            "check --",
            "check --json --",
            "check --svg p.svg --",
            "repair -o new.store --",
            "repair --in-place --",
            "show --",
            "wear --",
            "forecast --",
            "hurt -o new.store --bits 2 --",
        ] {
            let run = captions(call).with(name).within(folder.path());
            run.run().whole();
            assert_eq!(folder.read(name), file, "{call} {name:?}");
        }
        let run = captions("change --").with(name).with("1").with("x");
        run.within(folder.path()).run().whole();
        let run = captions("show --").with(name).with("1");
        assert_eq!(run.within(folder.path()).run().whole(), "x\n");
    }
}

#[test]
fn every_name_can_be_written() {
    for name in NAMES {
        let name = OsStr::from_bytes(name);
        let folder = Folder::new();
        folder.write("text", "one\n");
        let run = captions("make text -o").with(name).within(folder.path());
        run.run().whole();
        assert_eq!(folder.read(name), show(2, 2, &["one"]).file());
        assert_eq!(folder.names().len(), 2);
    }
}

#[test]
fn attached_to_its_option() {
    for name in [&b"-o"[..], b"new store", b"caf\xE9", b"=x"] {
        let name = OsStr::from_bytes(name);
        let folder = Folder::new();
        folder.write("text", "one\n");
        for option in ["-o", "--output="] {
            let mut attached = OsStr::new(option).to_os_string();
            attached.push(name);
            let run = captions("make text").with(&attached).within(folder.path());
            if attached == "-o=x" {
                run.run().called_wrongly();
                continue;
            }
            run.run().whole();
            assert_eq!(folder.read(name), show(2, 2, &["one"]).file());
            std::fs::remove_file(folder.at(name)).expect("it is there");
        }
    }
}

#[test]
fn a_name_that_is_a_hyphen() {
    let folder = Folder::new();
    folder.write("-", play(2, 2).file());
    let text = captions("show ./-").within(folder.path()).run().whole();
    assert_eq!(text.lines().count(), 4);
}

#[test]
fn a_name_in_a_refusal() {
    let folder = Folder::new();
    for name in NAMES {
        let name = OsStr::from_bytes(name);
        folder.write(name, [0; 100]);
        let run = captions("show --").with(name).within(folder.path());
        let message = run.run().refused();
        if let Some(text) = name.to_str().filter(|text| !text.contains(['\n', '\x1B'])) {
            assert!(
                message.starts_with(&format!("captions: {text}: ")),
                "{message}"
            );
        }
    }
}
