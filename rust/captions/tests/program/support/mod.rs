//! What the tests share: runs of the program in folders of their own, what the
//! second implementation expects, and strict readers of what the program writes.

pub mod expected;
pub mod folder;
pub mod json;
pub mod picture;
pub mod printed;
pub mod run;
pub mod shows;
pub mod text;
pub mod xml;

pub use expected::Checked;
pub use folder::Folder;
pub use run::{Ran, captions};
