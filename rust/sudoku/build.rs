//! Links the proved static library.
//!
//! It is looked for where `bin/library` writes it, or at the path that
//! the environment variable `SUDOKU_STATICLIB` gives.

use std::env;
use std::path::{Path, PathBuf};

const VARIABLE: &str = "SUDOKU_STATICLIB";

/// The names that the archive may have, each with what the linker calls it: as
/// it is built, and as it is installed.
const NAMES: [(&str, &str); 2] = [("libcapi.a", "capi"), ("libsudoku.a", "sudoku")];

/// Where the archive should stand.
fn archive() -> PathBuf {
    if let Some(path) = env::var_os(VARIABLE) {
        return PathBuf::from(path);
    }
    let here = env::var_os("CARGO_MANIFEST_DIR").unwrap_or_default();
    Path::new(&here).join("../../target/staticlib/libcapi.a")
}

fn main() {
    println!("cargo::rerun-if-env-changed={VARIABLE}");
    let archive = archive();
    println!("cargo::rerun-if-changed={}", archive.display());
    let Ok(archive) = archive.canonicalize() else {
        println!(
            "cargo::error=there is no static library at {}: run `bin/library` in the \
             repository's root, or set {VARIABLE} to the path of libcapi.a or libsudoku.a",
            archive.display()
        );
        return;
    };
    let named = |name| archive.file_name().is_some_and(|file| file == name);
    let Some((_, library)) = NAMES.into_iter().find(|&(name, _)| named(name)) else {
        println!("cargo::error={VARIABLE} must name a file libcapi.a or libsudoku.a");
        return;
    };
    let folder = archive.parent().unwrap_or(Path::new("/"));
    println!("cargo::rustc-link-search=native={}", folder.display());
    println!("cargo::rustc-link-lib=static={library}");
}
