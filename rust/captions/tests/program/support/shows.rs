//! Stores that tests hand in.

use std::fs;
use std::path::{Path, PathBuf};

use reference::draw::{self, Damage, Store};
use reference::random::Random;
use reference::{LINE_BYTES, answer, write_line};

use super::text::data_of;

/// A file of the folder `examples`.
pub fn example(name: &str) -> PathBuf {
    let root = Path::new(env!("CARGO_MANIFEST_DIR")).join("../..");
    root.join("examples").join(name)
}

/// The captions of the example text.
pub fn hamlet() -> Vec<String> {
    let text = fs::read_to_string(example("hamlet.txt")).expect("the example text");
    text.lines().map(str::to_string).collect()
}

/// The store of these captions, undamaged; lines without a caption are empty.
pub fn show<S: AsRef<str>>(rows: usize, columns: usize, captions: &[S]) -> Store {
    let mut store = Store::zero(rows, columns);
    let lines = store.lines.chunks_exact_mut(LINE_BYTES);
    for (line, caption) in lines.zip(captions) {
        write_line(&data_of(caption.as_ref()), line);
    }
    assert_eq!(store.tables_anew(), answer::DONE);
    store
}

/// A store of these sides with lines of the play, undamaged.
pub fn play(rows: usize, columns: usize) -> Store {
    let hamlet = hamlet();
    let captions: Vec<&String> = hamlet.iter().cycle().take(rows * columns).collect();
    show(rows, columns, &captions)
}

/// The 6 by 6 store of the whole example text.
pub fn hamlet_store() -> Store {
    show(6, 6, &hamlet())
}

/// A store of these sides with lines of the play or any bytes, hurt in a drawn
/// way.
pub fn drawn(random: &mut Random, (rows, columns): (usize, usize)) -> Store {
    let mut store = if random.once_in(2) {
        play(rows, columns)
    } else {
        Store::random(random, rows, columns)
    };
    let way = Damage::any(random);
    draw::hurt(random, &mut store, way);
    store
}

/// A play of these sides with four lines past repair at the corners of a
/// rectangle: those of rows 0 and 1 in columns 0 and 1.
pub fn with_lost(rows: usize, columns: usize) -> Store {
    let mut store = play(rows, columns);
    for (k, n) in [0, 1, columns, columns + 1].into_iter().enumerate() {
        let places: Vec<usize> = (0..5).map(|j| 17 * k + 90 * j).collect();
        store.hurt(n, &places);
    }
    store
}

/// A play in which line 0 holds line 1's caption: lines and tables disagree.
pub fn in_disagreement(rows: usize, columns: usize) -> Store {
    let mut store = play(rows, columns);
    let other = store.line(1).to_vec();
    store.line_mut(0).copy_from_slice(&other);
    store
}
