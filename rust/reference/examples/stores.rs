//! Makes the small stores of the folder `examples`, each with the report that
//! this implementation gives for it.
//!
//! `cargo run --release -p reference --example stores -- FOLDER`

use reference::draw::Store;
use reference::file::storecheck;
use reference::{DATA_BYTES, answer, write_line};
use std::path::Path;

/// The captions of the show, one to a line of the store.
const CAPTIONS: [&str; 16] = [
    "HAMLET: To be, or not to be, that is the question:",
    "Whether 'tis nobler in the mind to suffer",
    "The slings and arrows of outrageous fortune,",
    "Or to take arms against a sea of troubles",
    "And by opposing end them. To die: to sleep;",
    "No more; and by a sleep to say we end",
    "The heart-ache and the thousand natural shocks",
    "That flesh is heir to: 'tis a consummation",
    "Devoutly to be wish'd. To die, to sleep;",
    "To sleep, perchance to dream. Ay, there's the rub:",
    "For in that sleep of death what dreams may come,",
    "When we have shuffled off this mortal coil,",
    "Must give us pause. There's the respect",
    "That makes calamity of so long life.",
    "[Enter OPHELIA]",
    "Soft you now! The fair Ophelia!",
];

/// A caption's line: its bytes, filled up with spaces.
fn line_of(caption: &str) -> [u8; 70] {
    let mut data = [b' '; DATA_BYTES];
    data[..caption.len()].copy_from_slice(caption.as_bytes());
    let mut line = [0; 70];
    assert_eq!(write_line(&data, &mut line), answer::DONE);
    line
}

/// The whole show, undamaged.
fn show() -> Store {
    let mut store = Store::zero(4, 4);
    for (n, caption) in CAPTIONS.iter().enumerate() {
        store.line_mut(n).copy_from_slice(&line_of(caption));
    }
    assert_eq!(store.tables_anew(), answer::DONE);
    store
}

/// One line with one damaged bit, two of a row with two each, and one with
/// five beside them: all can be mended.
fn hurt() -> Store {
    let mut store = show();
    store.hurt(2, &[77]);
    store.hurt(4, &[10, 300]);
    store.hurt(6, &[55, 410]);
    store.hurt(15, &[1, 100, 200, 300, 400]);
    store
}

/// Four lines at the corners of a rectangle, five damaged bits each: no row
/// and no column has fewer than two of them, and their places are too many to
/// try.
fn lost() -> Store {
    let mut store = show();
    for (k, n) in [5, 6, 9, 10].into_iter().enumerate() {
        let places: Vec<usize> = (0..5).map(|j| 17 * k + 90 * j).collect();
        store.hurt(n, &places);
    }
    store
}

/// The two lines of a row that `hurt` has, and parity lines hurt too: that row's
/// can't be read, so their columns rebuild them, and one of these has a
/// damaged bit itself.
fn parity() -> Store {
    let mut store = show();
    store.hurt(4, &[10, 300]);
    store.hurt(6, &[55, 410]);
    store.hurt_row_parity(1, &[7, 200, 540]);
    store.hurt_column_parity(2, &[99]);
    store
}

/// One line in place of another: each line is whole, the tables differ.
fn misplaced() -> Store {
    let mut store = show();
    store.line_mut(3).copy_from_slice(&line_of(CAPTIONS[4]));
    store
}

fn main() -> std::io::Result<()> {
    let folder = std::env::args().nth(1).unwrap_or_else(|| ".".into());
    let stores = [
        ("clean", show()),
        ("hurt", hurt()),
        ("lost", lost()),
        ("misplaced", misplaced()),
        ("parity", parity()),
    ];
    for (name, store) in stores {
        let file = store.file();
        let path = Path::new(&folder).join(name);
        std::fs::write(path.with_extension("store"), &file)?;
        std::fs::write(path.with_extension("report"), storecheck(&file))?;
    }
    Ok(())
}
