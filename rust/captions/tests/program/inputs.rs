//! Inputs that an option names as the output too: they stay as they are.

use crate::support::run::shell;
use crate::support::shows::play;
use crate::support::{Folder, captions};

#[test]
fn never_written_over() {
    let folder = Folder::new();
    let store = play(3, 3).file();
    folder.write("a.store", &store);
    folder.write("text", "one\n");
    std::os::unix::fs::symlink("a.store", folder.at("link")).expect("a link");
    for call in [
        "check a.store --svg a.store",
        "check a.store --svg link",
        "check link --json --svg a.store",
        "wear a.store --save a.store",
        "wear link --save ./a.store",
        "make text -o text",
        "make text -o ./text",
    ] {
        let run = captions(call).within(folder.path());
        run.run().called_wrongly();
        assert_eq!(folder.read("a.store"), store, "{call}");
        assert_eq!(folder.read("text"), b"one\n", "{call}");
    }
    assert_eq!(folder.names(), ["a.store", "link", "text"]);
}

#[test]
fn nor_by_standard_input() {
    let folder = Folder::new();
    let mut hurt = play(3, 3);
    hurt.hurt(4, &[1, 2]);
    folder.write("a.store", hurt.file());
    for call in ["repair - -o a.store", "hurt - -o a.store --bits 2"] {
        let run = shell("exec \"$@\" <a.store").words(call);
        run.within(folder.path()).run().called_wrongly();
        assert_eq!(folder.read("a.store"), hurt.file(), "{call}");
    }
}

#[test]
fn the_same_input_twice() {
    let folder = Folder::new();
    folder.write("a.store", play(2, 2).file());
    let text = captions("wear a.store a.store --save sum");
    text.within(folder.path()).run().whole();
    let saved = String::from_utf8(folder.read("sum")).expect("text");
    let expected = ["2", "8", "8", "0", "0", "0", "0", "2", "0", "0"];
    assert!(saved.split_whitespace().eq(expected), "{saved}");
    for call in ["check - -", "wear - -"] {
        let run = captions(call).input(&play(2, 2).file());
        run.run().called_wrongly();
    }
}
