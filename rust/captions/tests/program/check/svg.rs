//! `--svg`: the picture as a drawing, read as XML and looked at cell by cell.

use std::collections::BTreeSet;

use reference::draw::Store;
use reference::mark;

use super::{stores, with_every_mark};
use crate::support::expected::{Lost, MARKS};
use crate::support::json::Value;
use crate::support::shows::{hamlet_store, play, with_lost};
use crate::support::text::numbers;
use crate::support::xml::Element;
use crate::support::{Checked, Folder, captions};

/// The drawing that the program writes for a store of this name.
pub fn drawing(store: &Store, name: &str) -> (Checked, Element) {
    let folder = Folder::new();
    folder.write(name, store.file());
    let expected = Checked::of(store.clone());
    let run = captions("check --svg picture.svg --").with(name);
    let ran = run.within(folder.path()).run();
    assert_eq!((ran.status, ran.err.as_str()), (expected.status(), ""));
    assert_eq!(folder.names().len(), 2, "the store and the drawing");
    let text = String::from_utf8(folder.read("picture.svg")).expect("text");
    let root = Element::read(&text).unwrap_or_else(|wrong| panic!("{wrong}"));
    assert_eq!(root.name, "svg");
    let space = "http://www.w3.org/2000/svg";
    assert_eq!(root.attribute("xmlns"), Some(space));
    (expected, root)
}

/// The titles of cells, in the order of the captions.
fn titles(root: &Element) -> Vec<&str> {
    let titles = root.named("title").into_iter();
    let texts = titles.map(|title| title.text.as_str());
    let cells = texts.filter(|text| text.starts_with("caption "));
    let mut cells: Vec<&str> = cells.collect();
    cells.sort_by_key(|title| numbers(title)[0]);
    cells
}

/// The titles that the cells should have: those that aren't clean.
fn expected_titles(expected: &Checked) -> Vec<String> {
    let marks = expected.repaired.marks.iter().enumerate();
    let hurt = marks.filter(|(_, mark)| **mark != mark::CLEAN);
    let title = |(n, &mark): (usize, &u8)| {
        let place = Lost::at(n, expected.store.columns);
        format!("{place}: {}", MARKS[usize::from(mark)].0)
    };
    hurt.map(title).collect()
}

/// Whether the legend counts each mark that occurs.
fn legend_agrees(root: &Element, expected: &Checked) {
    let texts: Vec<&str> = root.named("text").iter().map(|t| t.text.trim()).collect();
    let legend = texts.join(" ");
    for (mark, (word, _)) in (0..).zip(MARKS) {
        let count = expected.count(mark);
        let counted = legend.contains(&format!(" {word} {count} "));
        assert!(counted || count == 0, "{count} {word}: {legend}");
    }
}

/// A filled rectangle.
struct Area {
    left: f64,
    top: f64,
    width: f64,
    height: f64,
    fill: String,
    title: Option<String>,
}

impl Area {
    fn holds(&self, (x, y): (f64, f64)) -> bool {
        let inside = |at: f64, start: f64, length: f64| start < at && at < start + length;
        inside(x, self.left, self.width) && inside(y, self.top, self.height)
    }
}

/// All rectangles, in the order in which they are painted; an element without a
/// fill or class of its own has that of the one around it.
fn areas(element: &Element, fill: &str, areas: &mut Vec<Area>) {
    let own = element.attribute("fill").or(element.attribute("class"));
    let fill = own.unwrap_or(fill);
    if element.name == "rect" {
        let number = |name| match element.attribute(name) {
            Some(text) => text.parse().expect("a number"),
            None => 0.0,
        };
        areas.push(Area {
            left: number("x"),
            top: number("y"),
            width: number("width"),
            height: number("height"),
            fill: fill.to_string(),
            title: element.children.first().map(|title| title.text.clone()),
        });
    }
    for child in &element.children {
        self::areas(child, fill, areas);
    }
}

/// The fill at the middle of each cell, which is that of the last rectangle
/// painted there. Where the cells stand is told by those with a title: the one in
/// row 0 and column 0, and the one in row 4 and column 4.
fn fills(root: &Element, rows: usize, columns: usize) -> Vec<String> {
    let mut painted = Vec::new();
    areas(root, "", &mut painted);
    let titled = |start: &str| {
        let is_it = |area: &&Area| area.title.as_ref().is_some_and(|t| t.contains(start));
        painted.iter().find(is_it).expect("a cell with a title")
    };
    let (first, other) = (titled(", row 0, column 0: "), titled(", row 4, column 4: "));
    let pitch = (
        (other.left - first.left) / 4.0,
        (other.top - first.top) / 4.0,
    );
    assert!(pitch.0 >= first.width && pitch.1 >= first.height && first.width > 0.0);
    let mut fills = Vec::new();
    for n in 0..rows * columns {
        let (row, column) = ((n / columns) as f64, (n % columns) as f64);
        let middle = (
            first.left + first.width / 2.0 + column * pitch.0,
            first.top + first.height / 2.0 + row * pitch.1,
        );
        let last = painted.iter().rfind(|area| area.holds(middle));
        fills.push(last.map_or(String::new(), |area| area.fill.clone()));
    }
    fills
}

#[test]
fn drawn_stores() {
    for store in stores().into_iter().step_by(3) {
        let (expected, root) = drawing(&store, "a.store");
        assert_eq!(titles(&root), expected_titles(&expected));
        legend_agrees(&root, &expected);
    }
}

#[test]
fn each_cell_is_filled_by_its_mark() {
    for (rows, columns) in [(5, 6), (9, 40), (30, 5)] {
        let (expected, root) = drawing(&with_every_mark(rows, columns), "a.store");
        let fills = fills(&root, rows, columns);
        let mut of_marks = Vec::new();
        for mark in 0..5 {
            let marked = fills.iter().zip(&expected.repaired.marks);
            let of_mark = marked.filter(|(_, of)| **of == mark).map(|(fill, _)| fill);
            let of_mark: BTreeSet<&String> = of_mark.collect();
            assert_eq!(of_mark.len(), 1, "one fill for mark {mark}: {of_mark:?}");
            of_marks.extend(of_mark);
        }
        let different: BTreeSet<&&String> = of_marks.iter().collect();
        assert_eq!(different.len(), 5, "{of_marks:?}");
        assert!(!of_marks.iter().any(|fill| fill.is_empty()));
    }
}

#[test]
fn titles_by_hand() {
    let (_, root) = drawing(&with_lost(2, 2), "a.store");
    assert_eq!(
        titles(&root),
        [
            "caption 0 (cue 1), row 0, column 0: faulty",
            "caption 1 (cue 2), row 0, column 1: faulty",
            "caption 2 (cue 3), row 1, column 0: faulty",
            "caption 3 (cue 4), row 1, column 1: faulty",
        ]
    );
    let (_, root) = drawing(&hamlet_store(), "a.store");
    assert!(titles(&root).is_empty());
}

#[test]
fn rows_and_columns_have_numbers() {
    let (_, root) = drawing(&hamlet_store(), "a.store");
    let texts: Vec<&str> = root.named("text").iter().map(|t| t.text.trim()).collect();
    for number in 0..6 {
        let number = number.to_string();
        let times = texts.iter().filter(|text| **text == number).count();
        assert!(times >= 2, "{number} at both edges: {texts:?}");
    }
    let (_, root) = drawing(&play(200, 100), "a.store");
    let texts: Vec<&str> = root.named("text").iter().map(|t| t.text.trim()).collect();
    for number in ["10", "90", "190"] {
        assert!(texts.contains(&number), "{number}: {texts:?}");
    }
    assert!(!texts.contains(&"11"), "every tenth alone");
}

#[test]
fn names_are_escaped() {
    for (name, told) in [
        ("<b>&amp;'\"]]>.store", "<b>&amp;'\"]]>.store"),
        ("ä’😀 – x.store", "ä’😀 – x.store"),
        ("-- -->.store", "-- -->.store"),
    ] {
        let (_, root) = drawing(&play(2, 2), name);
        let found = root.all().iter().any(|element| element.text.contains(told));
        assert!(found, "{name}");
    }
    // What XML has no way to say is said otherwise, and the rest of the name stays.
    let (_, root) = drawing(&play(2, 2), "\u{1}\u{1B}odd\u{FFFE}.store");
    let texts = root.all();
    assert!(texts.iter().any(|element| element.text.contains("odd")));
}

#[test]
fn a_great_drawing_stays_small() {
    let mut store = Store::zero(512, 512);
    store.hurt(17, &[5]);
    store.hurt(262_143, &[5]);
    let folder = Folder::new();
    folder.write("a.store", store.file());
    let run = captions("check a.store --svg a.svg --no-picture");
    run.within(folder.path()).run().whole();
    let text = String::from_utf8(folder.read("a.svg")).expect("text");
    assert!(text.len() < 1_000_000, "{} bytes", text.len());
    let root = Element::read(&text).expect("well-formed");
    assert_eq!(
        titles(&root),
        [
            "caption 17 (cue 18), row 0, column 17: alone",
            "caption 262143 (cue 262144), row 511, column 511: alone",
        ]
    );
}

#[test]
fn of_one_file_only() {
    let folder = Folder::new();
    folder.write("a.store", play(2, 2).file());
    let call = "check a.store a.store --svg a.svg";
    let message = captions(call).within(folder.path()).run().called_wrongly();
    assert!(message.contains("--svg"), "{message}");
    assert_eq!(folder.names(), ["a.store"]);
}

#[test]
fn no_drawing_of_a_refused_file() {
    let folder = Folder::new();
    folder.write("a.store", [0; 600]);
    folder.write("old.svg", "old");
    for call in ["check a.store --svg new.svg", "check a.store --svg old.svg"] {
        let ran = captions(call).within(folder.path()).run();
        assert_eq!(ran.status, 1);
    }
    assert_eq!(folder.names(), ["a.store", "old.svg"]);
    assert_eq!(folder.read("old.svg"), b"old");
}

#[test]
fn with_json_too() {
    let folder = Folder::new();
    folder.write("a.store", with_lost(3, 3).file());
    let run = captions("check a.store --json --svg a.svg").within(folder.path());
    let ran = run.run();
    assert_eq!(ran.status, 1);
    let objects = Value::printed(ran.text());
    super::json::agrees(&objects[0], "a.store", &Checked::of(with_lost(3, 3)));
    let text = String::from_utf8(folder.read("a.svg")).expect("text");
    let root = Element::read(&text).expect("well-formed");
    assert_eq!(titles(&root).len(), 4);
}
