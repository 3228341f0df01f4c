//! The program `storecheck` against the second implementation's report, on
//! drawn files, truncated and spoilt ones too.

use std::io::Write;
use std::path::{Path, PathBuf};
use std::process::{Command, Stdio};

use library_tests::{cases, seed};
use reference::draw::{self, Store};
use reference::random::Random;

use crate::marks::q1;
use crate::parity::q3;

/// Where the program is built: `target/bin/storecheck` of the repository, or
/// what `SUDOKU_STORECHECK` says.
fn program() -> PathBuf {
    match std::env::var_os("SUDOKU_STORECHECK") {
        Some(path) => PathBuf::from(path),
        None => root().join("target/bin/storecheck"),
    }
}

/// The repository's root.
fn root() -> PathBuf {
    Path::new(env!("CARGO_MANIFEST_DIR")).join("../..")
}

/// What the program prints for this file.
fn printed(program: &Path, file: &[u8]) -> String {
    let mut child = Command::new(program)
        .stdin(Stdio::piped())
        .stdout(Stdio::piped())
        .spawn()
        .expect("storecheck is built by `bin/storecheck`");
    if let Some(mut stdin) = child.stdin.take() {
        // It may stop reading before the end, as for a file that is too long.
        let _ = stdin.write_all(file);
    }
    let output = child.wait_with_output().expect("storecheck ends");
    String::from_utf8_lossy(&output.stdout).into_owned()
}

/// The samples and edges of document 01 that are about files.
fn samples() -> Vec<Vec<u8>> {
    let zero = Store::zero(2, 2).file();
    let mut files = vec![zero[..27].to_vec(), zero[..28].to_vec(), Vec::new(), zero];
    for (rows, columns) in [(16, 16), (17, 2), (2, 17), (1, 2), (2, 513), (512, 512)] {
        files.push(Store::zero(rows, columns).file());
    }
    files
}

#[test]
fn storecheck_agrees() {
    let program = program();
    let mut random = Random::new(seed());
    let mut files = samples();
    for _ in 0..cases(2_000) {
        files.push(draw::store_file(&mut random));
    }
    for (i, file) in files.iter().enumerate() {
        let expected = reference::storecheck(file);
        assert_eq!(printed(&program, file), expected, "file {i}");
    }
    println!("storecheck: {} files", files.len());
}

#[test]
fn hamming_bits_count_under_alone() {
    let (store, report) = q1::report();
    assert_eq!(printed(&program(), &store.file()), report);
}

#[test]
fn a_report_is_whole_whatever_the_parity_lines() {
    for case in q3::all() {
        let (rows, columns) = case.sides;
        let file = case.hurt(&Store::zero(rows, columns)).file();
        assert_eq!(printed(&program(), &file), case.report(), "{}", case.says);
    }
}

#[test]
fn examples_have_their_reports() {
    for name in ["clean", "hurt", "lost", "misplaced", "parity"] {
        let path = root().join("examples").join(name);
        let file = std::fs::read(path.with_extension("store")).expect("an example");
        let report = std::fs::read_to_string(path.with_extension("report")).expect("its report");
        assert_eq!(reference::storecheck(&file), report, "{name}");
    }
}
