//! `captions make`: stores from texts and from subtitles.

mod refused;
pub mod sides;
mod subtitles;
mod texts;

use crate::support::{Folder, Ran, captions};

/// The program's run on a text in a file of this name, with more arguments; the
/// store goes to `new.store`.
pub fn make(folder: &Folder, name: &str, text: impl AsRef<[u8]>, more: &str) -> Ran {
    folder.write(name, text);
    let run = captions("make -o new.store").with(name).words(more);
    run.within(folder.path()).run()
}

/// The store that the program makes of a text in a file of this name.
pub fn made(name: &str, text: impl AsRef<[u8]>, more: &str) -> Vec<u8> {
    let folder = Folder::new();
    let printed = make(&folder, name, text, more).whole();
    assert!(printed.starts_with("new.store: "), "{printed}");
    assert_eq!(folder.names().len(), 2, "the text, the store and no more");
    folder.read("new.store")
}

/// The message with which a text is refused; nothing is written, and a store that
/// stands there stays.
pub fn refusal(name: &str, text: impl AsRef<[u8]>, more: &str) -> String {
    let folder = Folder::new();
    let message = make(&folder, name, &text, more).refused();
    assert_eq!(folder.names(), [name], "nothing is written");

    folder.write("new.store", "old");
    assert_eq!(make(&folder, name, &text, more).refused(), message);
    assert_eq!(folder.names().len(), 2, "nothing is written");
    assert_eq!(folder.read("new.store"), b"old");
    message
}
