//! What the tests of the library share: both implementations behind one
//! interface, buffers with guards, and the comparison of one call.

mod by_reference;
mod compare;
pub mod file;
pub mod forecast;
mod guard;
mod interface;
pub mod wear;

pub use by_reference::file_bytes;
pub use compare::{Entry, Numbers, compare};
pub use guard::Guarded;
pub use interface::{Interface, Library, Reference, both};

/// The number in this environment variable.
fn asked(variable: &str) -> Option<u64> {
    std::env::var(variable).ok()?.parse().ok()
}

/// How many cases a test draws: `usual`, or that times `SUDOKU_PERCENT` by a
/// hundred.
pub fn cases(usual: usize) -> usize {
    let percent = asked("SUDOKU_PERCENT").unwrap_or(100) as usize;
    (usual.saturating_mul(percent) / 100).max(1)
}

/// Whether no fewer cases are drawn than usual, so that rare ones come up.
pub fn as_many_as_usual() -> bool {
    cases(100) >= 100
}

/// Whether a memory checker watches, as the variable `SUDOKU_MEMCHECK` says:
/// stores are then kept small, and buffers stand without guard bytes, since
/// the checker sees reads outside them too.
pub fn watched() -> bool {
    std::env::var_os("SUDOKU_MEMCHECK").is_some()
}

/// The seed that tests draw with: 1, or the number in `SUDOKU_SEED`.
pub fn seed() -> u64 {
    asked("SUDOKU_SEED").unwrap_or(1)
}
