//! A store as a picture: an SVG with a cell for each caption.

mod layout;

use std::fmt::{self, Display, Formatter, Write};

use sudoku::{Mark, Repaired};

use layout::{EDGE, LEGEND_LINE, Layout};

use crate::marks::{look, meaning};
use crate::shown::Place;

/// The title has at most so many characters.
const TITLE_LETTERS: usize = 48;

/// Text as XML writes it.
struct Xml<'a>(&'a str);

impl Display for Xml<'_> {
    fn fmt(&self, f: &mut Formatter<'_>) -> fmt::Result {
        for char in self.0.chars() {
            match char {
                '&' => f.write_str("&amp;")?,
                '<' => f.write_str("&lt;")?,
                '>' => f.write_str("&gt;")?,
                '"' => f.write_str("&quot;")?,
                '\'' => f.write_str("&#39;")?,
                // XML has no way to write these.
                '\u{FFFE}' | '\u{FFFF}' => f.write_char('\u{FFFD}')?,
                char if char.is_control() => f.write_char('\u{FFFD}')?,
                char => f.write_char(char)?,
            }
        }
        Ok(())
    }
}

/// The picture of a store.
pub struct Svg<'a> {
    /// The store's name.
    pub name: &'a str,
    /// What repair gave.
    pub repaired: &'a Repaired,
}

impl Display for Svg<'_> {
    fn fmt(&self, f: &mut Formatter<'_>) -> fmt::Result {
        let store = &self.repaired.store;
        let layout = Layout::new(store.rows(), store.columns());
        let (width, height) = (layout.width(), layout.height());
        writeln!(
            f,
            "<svg xmlns=\"http://www.w3.org/2000/svg\" width=\"{width}\" height=\"{height}\" \
             viewBox=\"0 0 {width} {height}\" font-family=\"Helvetica, Arial, sans-serif\">"
        )?;
        self.write_title(f, &layout)?;
        write_numbers(f, &layout)?;
        self.write_clean(f, &layout)?;
        for mark in Mark::ALL.into_iter().skip(1) {
            self.write_marked(f, &layout, mark)?;
        }
        self.write_legend(f, &layout)?;
        f.write_str("</svg>\n")
    }
}

impl Svg<'_> {
    fn write_title(&self, f: &mut Formatter<'_>, layout: &Layout) -> fmt::Result {
        let (store, outcome) = (&self.repaired.store, self.repaired.outcome);
        let (rows, columns, count) = (store.rows(), store.columns(), store.count());
        let sides = format!("{rows} rows and {columns} columns, {count} captions");
        let answer = format!("answer {}: {}", outcome.number(), meaning(outcome));
        writeln!(f, "<title>{}: {sides}, {answer}</title>", Xml(self.name))?;
        let (width, height) = (layout.width(), layout.height());
        writeln!(
            f,
            r##"<rect width="{width}" height="{height}" fill="#ffffff"/>"##
        )?;
        let short = shortened(self.name);
        writeln!(
            f,
            "<text x=\"{EDGE}\" y=\"{}\" font-size=\"20\" font-weight=\"bold\" fill=\"#1f2a24\">{}</text>",
            EDGE + 18,
            Xml(&short)
        )?;
        let ink = if outcome.is_done() {
            "#5b6b62"
        } else {
            "#c92a2a"
        };
        writeln!(
            f,
            "<text x=\"{EDGE}\" y=\"{}\" font-size=\"13\" fill=\"#5b6b62\">{sides}; \
             <tspan fill=\"{ink}\">{answer}</tspan></text>",
            EDGE + 42
        )
    }

    /// The clean captions: one rectangle for those next to each other in a row,
    /// and lines over them that part the cells.
    fn write_clean(&self, f: &mut Formatter<'_>, layout: &Layout) -> fmt::Result {
        let fill = look(Mark::Clean).fill;
        writeln!(f, r#"<g class="clean" fill="{fill}">"#)?;
        for (row, marks) in self
            .repaired
            .marks
            .chunks(layout.columns.max(1))
            .enumerate()
        {
            let mut column = 0;
            for run in marks.chunk_by(|one, next| one == next) {
                if run.first() == Some(&Mark::Clean) {
                    layout.write_cells(f, row, column, run.len())?;
                    f.write_str("/>\n")?;
                }
                column += run.len();
            }
        }
        f.write_str("</g>\n")?;
        if layout.gap == 0 {
            return Ok(());
        }
        f.write_str("<path class=\"grid\" stroke=\"#ffffff\" stroke-width=\"1\" d=\"")?;
        for column in 1..layout.columns {
            // The gap is the last unit of a cell.
            let x = layout.x(column) - 1;
            write!(f, "M{x}.5 {}V{}", layout.top(), layout.y(layout.rows))?;
        }
        f.write_str("\"/>\n")
    }

    /// The captions with this mark, each with a title, and a letter if it has
    /// room for one.
    fn write_marked(&self, f: &mut Formatter<'_>, layout: &Layout, mark: Mark) -> fmt::Result {
        let marks = self.repaired.marks.iter().enumerate();
        let places = marks
            .filter(|&(_, &found)| found == mark)
            .map(|(number, _)| Place {
                number,
                columns: layout.columns,
            });
        if places.clone().next().is_none() {
            return Ok(());
        }
        let look = look(mark);
        writeln!(f, r#"<g class="{mark}" fill="{}">"#, look.fill)?;
        for place in places.clone() {
            layout.write_cells(f, place.row(), place.column(), 1)?;
            writeln!(f, "><title>{place}: {mark}</title></rect>")?;
        }
        f.write_str("</g>\n")?;
        if !layout.has_letters() {
            return Ok(());
        }
        let size = layout.cell * 5 / 8;
        writeln!(
            f,
            "<g font-size=\"{size}\" font-weight=\"bold\" text-anchor=\"middle\" fill=\"{}\" \
             pointer-events=\"none\">",
            look.ink
        )?;
        for place in places {
            let x = layout.x(place.column()) + layout.cell / 2;
            let y = layout.y(place.row()) + layout.cell * 11 / 16;
            writeln!(f, r#"<text x="{x}" y="{y}">{}</text>"#, look.letter)?;
        }
        f.write_str("</g>\n")
    }

    fn write_legend(&self, f: &mut Formatter<'_>, layout: &Layout) -> fmt::Result {
        let counts = &self.repaired.counts;
        let left = layout.left();
        f.write_str("<g class=\"legend\" font-size=\"13\" fill=\"#1f2a24\">\n")?;
        for (n, mark) in Mark::ALL.into_iter().enumerate() {
            let (look, y) = (look(mark), layout.legend() + n * LEGEND_LINE);
            let text = y + 12;
            writeln!(
                f,
                "<rect x=\"{left}\" y=\"{y}\" width=\"15\" height=\"15\" fill=\"{}\"/>\
                 <text x=\"{}\" y=\"{text}\" font-weight=\"bold\">{mark}</text>\
                 <text x=\"{}\" y=\"{text}\" text-anchor=\"end\">{}</text>\
                 <text x=\"{}\" y=\"{text}\" fill=\"#5b6b62\">{}</text>",
                look.fill,
                left + 24,
                left + 132,
                counts.of(mark),
                left + 148,
                look.says
            )?;
        }
        f.write_str("</g>\n")
    }
}

/// The numbers of rows and columns, every tenth of many.
fn write_numbers(f: &mut Formatter<'_>, layout: &Layout) -> fmt::Result {
    let half = layout.cell / 2;
    f.write_str("<g font-size=\"10\" fill=\"#5b6b62\" text-anchor=\"middle\">\n")?;
    for column in (0..layout.columns).step_by(layout.step()) {
        let (x, y) = (layout.x(column) + half, layout.top() - 6);
        writeln!(f, r#"<text x="{x}" y="{y}">{column}</text>"#)?;
    }
    f.write_str("</g>\n<g font-size=\"10\" fill=\"#5b6b62\" text-anchor=\"end\">\n")?;
    for row in (0..layout.rows).step_by(layout.step()) {
        let (x, y) = (layout.left() - 6, layout.y(row) + half + 3);
        writeln!(f, r#"<text x="{x}" y="{y}">{row}</text>"#)?;
    }
    f.write_str("</g>\n")
}

/// The end of a long name, which tells more than its start.
fn shortened(name: &str) -> String {
    let letters = name.chars().count();
    if letters <= TITLE_LETTERS {
        return name.to_string();
    }
    let end = name.chars().skip(letters - TITLE_LETTERS + 1);
    std::iter::once('…').chain(end).collect()
}

#[cfg(test)]
mod tests {
    use super::*;
    use sudoku::{Refusal, Store};

    fn drawn(name: &str, store: &Store) -> String {
        let repaired = store.repair();
        let svg = Svg {
            name,
            repaired: &repaired,
        };
        svg.to_string()
    }

    #[test]
    fn damaged_cells_have_titles() -> Result<(), Refusal> {
        let mut store = Store::new(5, 4)?;
        store.line_bytes_mut()[17 * sudoku::LINE_BYTES] ^= 3;
        store.line_bytes_mut()[2 * sudoku::LINE_BYTES] ^= 1;
        let svg = drawn("show.store", &store);
        let titles: Vec<&str> = svg
            .split("<title>")
            .skip(2)
            .filter_map(|part| part.split_once("</title>"))
            .map(|(title, _)| title)
            .collect();
        assert_eq!(
            titles,
            [
                "caption 2 (cue 3), row 0, column 2: alone",
                "caption 17 (cue 18), row 4, column 1: rebuilt",
            ]
        );
        // Rows 0 and 4 are parted, the other three are one rectangle each.
        let clean = svg.split_once("<g class=\"clean\"").map(|(_, rest)| rest);
        let clean = clean.and_then(|rest| rest.split_once("</g>"));
        let rectangles = clean.map_or(0, |(cells, _)| cells.matches("<rect").count());
        assert_eq!(rectangles, 2 + 3 + 2);
        Ok(())
    }

    #[test]
    fn names_are_escaped() -> Result<(), Refusal> {
        let svg = drawn("<&\"'>\u{FFFF}", &Store::new(2, 2)?);
        let name = "<title>&lt;&amp;&quot;&#39;&gt;\u{FFFD}: 2 rows";
        assert!(svg.contains(name), "{svg}");
        Ok(())
    }

    #[test]
    fn long_names_lose_their_start() {
        assert_eq!(shortened("show.store"), "show.store");
        let long = format!("{}/show.store", "x".repeat(60));
        let short = shortened(&long);
        assert!(short.starts_with("…x") && short.ends_with("x/show.store"));
        assert_eq!(short.chars().count(), TITLE_LETTERS);
    }

    #[test]
    fn a_large_clean_store_stays_small() -> Result<(), Refusal> {
        let svg = drawn("large", &Store::new(512, 512)?);
        assert!(svg.len() < 60_000, "{}", svg.len());
        assert_eq!(svg.matches("<text").count(), 52 + 52 + 2 + 15);
        Ok(())
    }
}
