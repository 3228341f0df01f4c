//! Parity lines that can't be read alone.

use std::fmt::{self, Display, Formatter};

use sudoku::{LINE_BYTES, Store, read_line};

/// The parity line of a row or a column.
#[derive(Clone, Copy, Debug, PartialEq, Eq)]
pub struct Side(&'static str, usize);

impl Display for Side {
    fn fmt(&self, f: &mut Formatter<'_>) -> fmt::Result {
        write!(f, "{} {}", self.0, self.1)
    }
}

/// Those of a store that are faulty alone: rows first, then columns.
pub fn faulty_parity(store: &Store) -> Vec<Side> {
    let faulty = |name, table| faulty_in(table).map(move |number| Side(name, number));
    let rows = faulty("row", store.row_table());
    rows.chain(faulty("column", store.column_table())).collect()
}

/// The numbers of the faulty lines of a table.
fn faulty_in(table: &[u8]) -> impl Iterator<Item = usize> + '_ {
    let lines = table.as_chunks::<LINE_BYTES>().0.iter().enumerate();
    let faulty = lines.filter(|(_, line)| read_line(line).is_faulty());
    faulty.map(|(number, _)| number)
}

#[cfg(test)]
mod tests {
    use super::*;
    use sudoku::Refusal;

    #[test]
    fn what_mends_itself_is_not_named() -> Result<(), Refusal> {
        let mut store = Store::new(3, 4)?;
        assert_eq!(faulty_parity(&store), []);
        // One bit of row 0, two of row 2 and of column 3.
        store.row_table_mut()[0] ^= 1;
        store.row_table_mut()[2 * LINE_BYTES] ^= 3;
        store.column_table_mut()[3 * LINE_BYTES] ^= 3;
        let named: Vec<String> = faulty_parity(&store).iter().map(Side::to_string).collect();
        assert_eq!(named, ["row 2", "column 3"]);
        Ok(())
    }
}
