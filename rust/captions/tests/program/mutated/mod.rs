//! Two thousand files spoilt in drawn ways through each subcommand: it ends with
//! status 0, 1 or 2, says what the second implementation says, changes no file but
//! the one it should write, and leaves nothing behind.

mod draw;
mod reports;
mod stores;
mod texts;

use crate::cases;
use crate::support::{Folder, Ran};

/// How many files go through each subcommand.
fn many() -> usize {
    cases(2_000)
}

/// Whether the folder holds these files and no other, the first with these bytes.
fn left(folder: &Folder, names: &[&str], bytes: &[u8], ran: &Ran) {
    assert_eq!(folder.names(), names, "{}", ran.err);
    assert_eq!(folder.read(names[0]), bytes, "{}", ran.err);
}

/// Whether a refusal is told: a message, and no file named `new`.
fn told(folder: &Folder, ran: &Ran) {
    assert_eq!(ran.status, 1, "{}", ran.err);
    assert!(ran.message().contains("a.store"), "{}", ran.err);
    assert!(!folder.at("new").exists(), "{}", ran.err);
}
