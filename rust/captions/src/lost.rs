//! The captions that are lost.

use std::fmt::{self, Display, Formatter};

use sudoku::{DATA_BYTES, Mark, Repaired, Store};

use crate::shown::{Place, Text, filled};

/// So many of them are named.
const MOST_NAMED: usize = 100;

/// A lost caption.
#[derive(Clone, Copy, Debug)]
pub struct Lost<'a> {
    /// Where it stands.
    pub place: Place,
    /// The text of the last caption before it that is whole and not empty, without
    /// spaces at its end.
    pub after: Option<Text<'a>>,
}

impl Display for Lost<'_> {
    fn fmt(&self, f: &mut Formatter<'_>) -> fmt::Result {
        self.place.fmt(f)?;
        match self.after {
            Some(text) => write!(f, ", after \"{text}\""),
            None => Ok(()),
        }
    }
}

/// The captions that repair leaves faulty, in their order.
pub fn lost(repaired: &Repaired) -> impl Iterator<Item = Lost<'_>> + Clone {
    let columns = repaired.store.columns();
    let marks = repaired.marks.iter().enumerate();
    let lost = marks.filter(|&(_, &mark)| mark == Mark::Faulty);
    let (mut after, mut seen) = (None, 0);
    lost.map(move |(number, _)| {
        // Only the lines between two lost ones are looked at, from the last on.
        let newer = (seen..number).rev().find_map(|n| text(&repaired.store, n));
        after = newer.or(after);
        seen = number + 1;
        let place = Place { number, columns };
        Lost { place, after }
    })
}

/// The text of a line, unless the caption is empty or nothing but spaces.
fn text(store: &Store, n: usize) -> Option<Text<'_>> {
    let data = store.line(n).ok()?.first_chunk::<DATA_BYTES>()?;
    let mut text = filled(data);
    while let Some(start) = text.strip_suffix(b" ") {
        text = start;
    }
    Some(Text(text)).filter(|_| !text.is_empty())
}

/// Things as a list under a heading, the first hundred of them; nothing if there
/// are none.
pub struct List<'a, I> {
    /// The heading.
    pub heading: &'a str,
    /// The things.
    pub things: I,
}

impl<I> Display for List<'_, I>
where
    I: Iterator + Clone,
    I::Item: Display,
{
    fn fmt(&self, f: &mut Formatter<'_>) -> fmt::Result {
        let mut things = self.things.clone().peekable();
        if things.peek().is_none() {
            return Ok(());
        }
        writeln!(f, "{}:", self.heading)?;
        for thing in things.by_ref().take(MOST_NAMED) {
            writeln!(f, "  {thing}")?;
        }
        match things.count() {
            0 => Ok(()),
            more => writeln!(f, "  and {more} more"),
        }
    }
}

#[cfg(test)]
mod tests {
    use super::*;
    use sudoku::Refusal;

    /// A store whose four lines of the upper left corner are lost.
    fn torn() -> Result<Repaired, Refusal> {
        let mut data = [[0; 64]; 12];
        for (n, data) in data.iter_mut().enumerate() {
            data[0] = b'a' + n as u8;
        }
        data[3] = [0; 64];
        let mut store = Store::from_data(3, 4, &data)?;
        for n in [1, 2, 5, 6] {
            store.line_bytes_mut()[n * sudoku::LINE_BYTES + 9] ^= 3;
        }
        Ok(store.repair())
    }

    #[test]
    fn lost_captions_are_named_with_what_stands_before() -> Result<(), Refusal> {
        let repaired = torn()?;
        let named: Vec<String> = lost(&repaired).map(|lost| lost.to_string()).collect();
        assert_eq!(
            named,
            [
                r#"caption 1 (cue 2), row 0, column 1, after "a""#,
                r#"caption 2 (cue 3), row 0, column 2, after "a""#,
                // Caption 3 is empty.
                r#"caption 5 (cue 6), row 1, column 1, after "e""#,
                r#"caption 6 (cue 7), row 1, column 2, after "e""#,
            ]
        );
        Ok(())
    }

    #[test]
    fn a_list_ends_after_a_hundred() {
        let list = |count| {
            let things = 0..count;
            let list = List {
                heading: "lost",
                things,
            };
            list.to_string()
        };
        assert_eq!(list(0), "");
        assert_eq!(list(2), "lost:\n  0\n  1\n");
        assert!(list(100).ends_with("\n  99\n"));
        assert!(list(112).ends_with("\n  99\n  and 12 more\n"));
    }
}
