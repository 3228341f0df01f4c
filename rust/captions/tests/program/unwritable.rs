//! Files that can't be written: what stood there stays, and nothing is left beside.

use std::fs;
use std::os::unix::fs::{FileTypeExt, PermissionsExt};
use std::process::Command;

use crate::support::run::shell;
use crate::support::shows::play;
use crate::support::{Folder, Ran, captions};

/// Calls that write `new`.
const WRITING: [&str; 5] = [
    "make text -o new",
    "repair a.store -o new",
    "hurt a.store -o new --bits 3",
    "check a.store --svg new",
    "wear a.store --save new",
];

/// Calls that write over the store itself.
const IN_PLACE: [&str; 2] = ["repair a.store --in-place", "change a.store 1 other"];

/// A folder with a text and a store that fills some thousand bytes; one line of it
/// is hurt, so that a repair changes it.
fn folder() -> (Folder, Vec<u8>) {
    let folder = Folder::new();
    let mut store = play(16, 16);
    store.hurt(40, &[5]);
    let text: String = (0..200).map(|n| format!("caption {n}\n")).collect();
    folder.write("text", text);
    folder.write("a.store", store.file());
    (folder, store.file())
}

fn failed(ran: &Ran, call: &str, name: &str) {
    assert_eq!(ran.status, 1, "{call}: {}", ran.err);
    let told = format!("captions: {name}: ");
    assert!(ran.err.contains(&told), "{call}: {}", ran.err);
}

#[test]
fn a_folder_that_is_not_there() {
    let (folder, _) = folder();
    for call in WRITING {
        let call = call.replace("new", "no/new");
        let ran = captions(&call).within(folder.path()).run();
        failed(&ran, &call, "no/new");
        assert_eq!(folder.names(), ["a.store", "text"], "{call}");
    }
}

#[test]
fn a_folder_where_the_file_should_stand() {
    let (folder, _) = folder();
    fs::create_dir(folder.at("new")).expect("a folder");
    folder.write("new/kept", "kept");
    for call in WRITING {
        let ran = captions(call).within(folder.path()).run();
        failed(&ran, call, "new");
        assert_eq!(folder.names(), ["a.store", "new", "text"], "{call}");
        assert_eq!(folder.read("new/kept"), b"kept");
    }
}

/// The call where no file may grow beyond some hundred bytes: the write fails.
fn limited(folder: &Folder, call: &str) -> Ran {
    let line = "trap '' XFSZ; ulimit -f 1; exec \"$@\"";
    shell(line).words(call).within(folder.path()).run()
}

#[test]
fn no_room_for_a_new_file() {
    // The wear report is shorter than the limit.
    let (folder, _) = folder();
    for call in &WRITING[..4] {
        let ran = limited(&folder, call);
        failed(&ran, call, "new");
        assert_eq!(folder.names(), ["a.store", "text"], "{call}");
        folder.write("new", "old");
        failed(&limited(&folder, call), call, "new");
        assert_eq!(folder.read("new"), b"old", "{call}");
        assert_eq!(folder.names(), ["a.store", "new", "text"], "{call}");
        fs::remove_file(folder.at("new")).expect("it is there");
    }
}

#[test]
fn no_room_in_place() {
    let (folder, file) = folder();
    for call in IN_PLACE {
        failed(&limited(&folder, call), call, "a.store");
        assert_eq!(folder.read("a.store"), file, "{call}: the old bytes stay");
        assert_eq!(folder.names(), ["a.store", "text"], "{call}");
    }
    // Without the limit the same calls write.
    for call in IN_PLACE {
        captions(call).within(folder.path()).run().whole();
        assert_ne!(folder.read("a.store"), file, "{call}");
    }
}

#[test]
fn a_folder_that_may_not_be_written() {
    let (folder, file) = folder();
    let allow = |mode| {
        let mode = fs::Permissions::from_mode(mode);
        fs::set_permissions(folder.path(), mode).expect("permissions");
    };
    allow(0o555);
    // To the superuser everything is allowed.
    let allowed = fs::create_dir(folder.at("probe")).is_ok();
    let calls = WRITING.into_iter().chain(IN_PLACE);
    let run = |call| captions(call).within(folder.path()).run();
    let ran: Vec<(&str, Ran)> = calls.map(|call| (call, run(call))).collect();
    allow(0o755);
    for (call, ran) in ran {
        assert_eq!(ran.status, i32::from(!allowed), "{call}: {}", ran.err);
        assert_eq!(ran.err.is_empty(), allowed, "{call}: {}", ran.err);
    }
    assert_eq!(folder.read("a.store") != file, allowed);
    assert_eq!(folder.at("new").exists(), allowed);
}

#[test]
fn what_is_no_file_is_not_replaced_by_one() {
    // A device or pipe named as the output must not become a file of the folder.
    let (folder, _) = folder();
    let made = Command::new("mkfifo").arg(folder.at("new")).status();
    assert!(made.expect("mkfifo runs").success());
    for call in WRITING {
        let path = folder.at("new");
        let mut reader = Command::new("cat")
            .arg(&path)
            .stdout(std::process::Stdio::null())
            .spawn()
            .expect("cat runs");
        let ran = captions(call).within(folder.path()).run();
        let kind = fs::symlink_metadata(&path)
            .expect("it is there")
            .file_type();
        assert!(kind.is_fifo(), "{call} replaced a pipe");
        assert!(ran.status <= 1, "{call}: {}", ran.err);
        reader.kill().expect("cat is there");
        reader.wait().expect("cat ends");
        assert_eq!(folder.names(), ["a.store", "new", "text"], "{call}");
    }
}
