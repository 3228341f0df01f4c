//! `captions forecast`.

use reference::draw::Store;
use reference::line;
use reference::random::Random;
use reference::{LINE_BYTES, mark};

use crate::support::expected::Lost;
use crate::support::shows::{drawn, hamlet_store, in_disagreement, play, with_lost};
use crate::support::{Checked, Folder, captions};
use crate::{cases, seed};

/// What rebuilding alone would save of a store, as the second implementation has
/// it.
pub struct Expected {
    /// How many captions can't be read alone.
    pub faulty: usize,
    /// The captions that may be lost.
    pub lost: Vec<Lost>,
    /// The passes.
    pub passes: u64,
    /// The rows whose parity lines are faulty alone.
    pub rows: Vec<u64>,
    /// The columns whose parity lines are.
    pub columns: Vec<u64>,
}

/// A byte for each line: 1 where it is faulty alone.
pub fn faulty(lines: &[u8]) -> Vec<u8> {
    let lines = lines.chunks(LINE_BYTES).map(line::places);
    lines
        .map(|found| u8::from(line::read_alone(&found).1 == mark::FAULTY))
        .collect()
}

fn faulty_numbers(table: &[u8]) -> Vec<u64> {
    let marked = (0..).zip(faulty(table));
    marked
        .filter(|(_, faulty)| *faulty == 1)
        .map(|(n, _)| n)
        .collect()
}

/// The forecast of a store.
pub fn expected(store: &Store) -> Expected {
    let faulty = faulty(&store.lines);
    let mut marks = vec![0; store.count()];
    let forecast = reference::forecast(store.rows, store.columns, &faulty, &mut marks);
    assert_eq!(forecast.answer, 0);
    let lost = (0..store.count()).filter(|&n| marks[n] == mark::FAULTY);
    let rows = faulty_numbers(&store.row_table);
    let columns = faulty_numbers(&store.column_table);
    Expected {
        faulty: faulty.iter().filter(|&&faulty| faulty == 1).count(),
        lost: lost.map(|n| Lost::at(n, store.columns)).collect(),
        passes: forecast.passes,
        rows,
        columns,
    }
}

impl Expected {
    /// The first line.
    pub fn head(&self, name: &str, count: usize) -> String {
        let (faulty, lost) = (self.faulty, self.lost.len());
        let saved = faulty - lost;
        let passes = match self.passes {
            1 => "1 pass".to_string(),
            passes => format!("{passes} passes"),
        };
        format!(
            "{name}: {faulty} of {count} captions cannot be read alone; \
             rebuilding alone saves {saved} and may lose {lost} ({passes})"
        )
    }

    /// Whether this text is the forecast's.
    pub fn agrees(&self, name: &str, count: usize, text: &str) {
        let mut lines = text.lines();
        assert_eq!(lines.next(), Some(self.head(name, count).as_str()));
        let listed: Vec<&str> = lines
            .clone()
            .filter(|l| l.starts_with("  caption "))
            .collect();
        let lost: Vec<String> = self.lost.iter().map(|lost| format!("  {lost}")).collect();
        if lost.len() <= 100 {
            assert_eq!(listed, lost);
        }
        assert_eq!(named(text, "row"), self.rows, "{text}");
        assert_eq!(named(text, "column"), self.columns, "{text}");
        let bound = self.rows.is_empty() && self.columns.is_empty();
        assert_eq!(text.contains("parity"), !bound, "{text}");
        let says = text.ends_with("\nso this is no bound: repair may lose more\n");
        assert_eq!(says, !bound && self.faulty > 0, "{text}");
        assert_eq!(text.contains("bound"), says, "{text}");
    }

    /// The exit status: 0 where no line is faulty, or nothing may be lost and every
    /// parity line can be read.
    pub fn status(&self) -> i32 {
        let bound = self.rows.is_empty() && self.columns.is_empty();
        i32::from(self.faulty > 0 && !(self.lost.is_empty() && bound))
    }
}

/// The numbers of the rows, or columns, whose parity lines a text names.
fn named(text: &str, side: &str) -> Vec<u64> {
    let lines = text.lines().map(str::trim);
    let named = lines.filter_map(|line| line.strip_prefix(side)?.trim().parse().ok());
    named.collect()
}

fn compared(folder: &Folder, store: &Store) -> Expected {
    let file = store.file();
    folder.write("a.store", &file);
    let expected = expected(store);
    let ran = captions("forecast a.store").within(folder.path()).run();
    assert_eq!(ran.status, expected.status(), "{}", ran.text());
    assert_eq!(ran.err, "");
    expected.agrees("a.store", store.count(), ran.text());
    assert_eq!(folder.read("a.store"), file);
    expected
}

#[test]
fn by_hand() {
    let folder = Folder::new();
    let mut store = hamlet_store();
    for n in [0, 1, 2, 7, 8] {
        store.hurt(n, &[1, 2]);
    }
    // Columns give back line 0, and then 1 and 2 stand with 7 and 8 in two rows
    // and two columns.
    folder.write("a.store", store.file());
    let ran = captions("forecast a.store").within(folder.path()).run();
    assert_eq!(ran.status, 1);
    let head = "a.store: 5 of 36 captions cannot be read alone; \
                rebuilding alone saves 1 and may lose 4 (2 passes)";
    let mut lines = ran.text().lines();
    assert_eq!(lines.next(), Some(head));
    let listed: Vec<&str> = lines.filter(|line| line.starts_with("  ")).collect();
    assert_eq!(
        listed,
        [
            "  caption 1 (cue 2), row 0, column 1",
            "  caption 2 (cue 3), row 0, column 2",
            "  caption 7 (cue 8), row 1, column 1",
            "  caption 8 (cue 9), row 1, column 2",
        ]
    );
}

#[test]
fn a_whole_store() {
    let expected = compared(&Folder::new(), &hamlet_store());
    assert_eq!((expected.faulty, expected.passes), (0, 0));
    compared(&Folder::new(), &in_disagreement(3, 3));
    let expected = compared(&Folder::new(), &with_lost(4, 4));
    assert_eq!(expected.lost.len(), 4);
}

#[test]
fn parity_lines_that_are_faulty_alone() {
    let mut store = play(8, 9);
    store.hurt(10, &[1, 2]);
    store.hurt_row_parity(5, &[1, 2]);
    store.hurt_row_parity(6, &[1]);
    store.hurt_column_parity(7, &[1, 2, 3]);
    let expected = compared(&Folder::new(), &store);
    assert_eq!(expected.status(), 1, "no bound");
    assert_eq!((expected.rows, expected.columns), (vec![5], vec![7]));

    // Line 52 stands in row 5 and column 7: neither helps it, and repair loses
    // more than the forecast says.
    store.hurt(52, &[1, 2]);
    let expected = compared(&Folder::new(), &store);
    assert_eq!((expected.lost.len(), expected.status()), (0, 1));
    let lost = Checked::of(store).lost();
    assert_eq!(
        lost.iter().map(|lost| lost.number).collect::<Vec<_>>(),
        [52]
    );
}

#[test]
fn parity_lines_alone() {
    // No caption is faulty, so none can be lost.
    let mut store = play(3, 3);
    store.hurt_row_parity(1, &[1, 2]);
    let folder = Folder::new();
    let expected = compared(&folder, &store);
    assert_eq!((expected.rows.as_slice(), expected.status()), (&[1][..], 0));
    let text = captions("forecast a.store")
        .within(folder.path())
        .run()
        .whole();
    assert_eq!(
        text,
        "a.store: 0 of 9 captions cannot be read alone; rebuilding alone saves 0 and may lose 0 \
         (0 passes)\nparity lines that cannot be read alone:\n  row 1\n"
    );
}

#[test]
fn drawn_stores() {
    let mut random = Random::new(seed());
    let folder = Folder::new();
    let (mut some_lost, mut some_saved, mut no_bound) = (0, 0, 0);
    for i in 0..cases(200) {
        let sides = [(2, 2), (2, 7), (4, 4), (5, 3), (8, 8)][i % 5];
        let store = drawn(&mut random, sides);
        let expected = compared(&folder, &store);
        some_lost += usize::from(!expected.lost.is_empty());
        some_saved += usize::from(expected.faulty > expected.lost.len());
        no_bound += usize::from(expected.rows.len() + expected.columns.len() > 0);
    }
    println!(
        "captions forecast: {some_lost} with loss, {some_saved} with gain, {no_bound} no bound"
    );
    assert!(some_lost > 0 && some_saved > 0 && no_bound > 0);
}
