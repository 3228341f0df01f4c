//! Store files: a check beside the repair that it makes, the crate's repair
//! beside C's, and a store opened, repaired and saved by the crate beside the same
//! done plainly.

use std::fs::{self, File};
use std::hint::black_box;
use std::io::{self, Write};
use std::path::Path;
use std::{env, process};

use crate::SIDE;
use crate::doers::{Doer, check_file};
use crate::stores::{Buffers, Store};
use crate::table::{Bar, Figures, Row, scaled};
use crate::timing::{BOTH, Timed, rounds};

/// The stores that are checked: how they are hurt.
const STATES: [&str; 3] = ["clean", "lightly hurt", "hurt past repair"];

/// The rows of the table, in the order in which `run` gives their rounds.
pub fn rows() -> Vec<Row> {
    let row = |name: String, bars| Row::new(&name, Some("ms"), bars);
    let checks = STATES.map(|state| {
        let name = format!("check, {SIDE} by {SIDE}, {state}, beside repair");
        row(name, &[Bar::Measure(1.1)])
    });
    let crates = [
        row(
            format!("`Store::repair`, {SIDE} by {SIDE}, clean, beside repair"),
            &[],
        ),
        row(
            format!("open, repair and save, {SIDE} by {SIDE}, clean, beside the same done plainly"),
            &[Bar::Measure(1.5)],
        ),
    ];
    checks.into_iter().chain(crates).collect()
}

/// For each row its figures in every round.
///
/// # Errors
///
/// Those of the file system, where the store's file is put.
pub fn run(clean: &Store, hurt: &Store, past_repair: &Store) -> io::Result<Vec<Vec<Figures>>> {
    let mut given: Vec<Vec<Figures>> = [clean, hurt, past_repair].map(check).into();
    given.push(whole(clean));
    let path = env::temp_dir().join(format!("bench-{}.store", process::id()));
    let figures = open_and_save(clean, &path);
    fs::remove_file(&path)?;
    given.push(figures?);
    Ok(given)
}

/// A check of a store's file, beside its repair: milliseconds.
fn check(store: &Store) -> Vec<Figures> {
    let (mut out, mut due) = (Buffers::new(store.side), Buffers::new(store.side));
    let file = store.file();
    let (answer, check) = check_file(&file, &mut out);
    let repaired = Doer::Peer.repair(store, &mut due);
    assert!((answer, check.passes) == repaired && out == due, "a check");
    assert_eq!(check.lines, peer::wear::count(&due.marks), "its counts");
    let times = rounds(BOTH, |timed| {
        match timed {
            Timed::Library => {
                black_box(check_file(black_box(&file), &mut out));
            }
            Timed::Measure => {
                black_box(Doer::Library.repair(black_box(store), &mut out));
            }
        }
        black_box(&out);
    });
    scaled(times, 1e6)
}

/// The crate's repair, which finds room for itself, beside C's: milliseconds.
fn whole(store: &Store) -> Vec<Figures> {
    let mut out = Buffers::new(store.side);
    let of_crate = store.of_crate();
    let times = rounds(BOTH, |timed| match timed {
        Timed::Library => {
            let _ = black_box(black_box(&of_crate).repair());
        }
        Timed::Measure => {
            black_box(Doer::Library.repair(black_box(store), &mut out));
            black_box(&out);
        }
    });
    scaled(times, 1e6)
}

/// A store's file opened, repaired and saved: milliseconds.
fn open_and_save(store: &Store, path: &Path) -> io::Result<Vec<Figures>> {
    let of_crate = store.of_crate();
    of_crate.save(path)?;
    let by_crate = || -> Option<()> {
        let opened = sudoku::Store::open(path).ok()?;
        opened.repair().whole().ok()?.save(path).ok()
    };
    let mut out = Buffers::new(store.side);
    let mut plainly = || -> io::Result<()> {
        let file = fs::read(path)?;
        black_box(check_file(&file, &mut out));
        let mut to = File::create(path)?;
        to.write_all(&file[..sudoku::HEADER_BYTES])?;
        for part in [&out.lines, &out.row_table, &out.column_table] {
            to.write_all(part)?;
        }
        to.sync_all()
    };
    let mut failed = 0;
    let times = rounds(BOTH, |timed| {
        let done = match timed {
            Timed::Library => by_crate().is_some(),
            Timed::Measure => plainly().is_ok(),
        };
        failed += usize::from(!done);
    });
    if failed > 0 || fs::read(path)? != of_crate.as_bytes() {
        return Err(io::Error::other("the store's file came out otherwise"));
    }
    Ok(scaled(times, 1e6))
}
