//! The sides of a store for so many captions.

use sudoku::{GREATEST_SIDE, LEAST_SIDE};

/// Rows and columns.
#[derive(Clone, Copy, Debug, PartialEq, Eq)]
pub struct Sides {
    /// The rows.
    pub rows: usize,
    /// The columns.
    pub columns: usize,
}

impl Sides {
    /// The sides for so many captions: those that are given, and otherwise near
    /// a square, or as small as the other side allows.
    ///
    /// # Errors
    ///
    /// How many captions fit at most, if these don't.
    pub fn choose(
        captions: usize,
        rows: Option<usize>,
        columns: Option<usize>,
    ) -> Result<Sides, usize> {
        let other = |side: usize| fit(captions.div_ceil(side.max(1)));
        let (rows, columns) = match (rows, columns) {
            (Some(rows), Some(columns)) => (rows, columns),
            (Some(rows), None) => (rows, other(rows)),
            (None, given) => {
                let columns = given.unwrap_or_else(|| fit(root(captions)));
                (other(columns), columns)
            }
        };
        let room = rows.saturating_mul(columns);
        if captions > room {
            return Err(room);
        }
        Ok(Sides { rows, columns })
    }
}

/// The side that a store can have and that is nearest to this one.
fn fit(side: usize) -> usize {
    side.clamp(LEAST_SIDE, GREATEST_SIDE)
}

/// The least number whose square is at least this.
pub fn root(number: usize) -> usize {
    let floor = number.isqrt();
    floor + usize::from(floor * floor < number)
}

#[cfg(test)]
mod tests {
    use super::*;

    fn chosen(captions: usize, rows: Option<usize>, columns: Option<usize>) -> (usize, usize) {
        match Sides::choose(captions, rows, columns) {
            Ok(sides) => (sides.rows, sides.columns),
            Err(room) => panic!("{captions} captions: {room} fit"),
        }
    }

    #[test]
    fn sides_are_near_square() {
        assert_eq!(chosen(1, None, None), (2, 2));
        assert_eq!(chosen(4, None, None), (2, 2));
        assert_eq!(chosen(5, None, None), (2, 3));
        assert_eq!(chosen(7, None, None), (3, 3));
        assert_eq!(chosen(35, None, None), (6, 6));
        assert_eq!(chosen(37, None, None), (6, 7));
        assert_eq!(chosen(262_144, None, None), (512, 512));
    }

    #[test]
    fn one_side_may_be_given() {
        assert_eq!(chosen(35, Some(4), None), (4, 9));
        assert_eq!(chosen(35, None, Some(4)), (9, 4));
        assert_eq!(chosen(3, Some(512), None), (512, 2));
        assert_eq!(chosen(35, Some(5), Some(7)), (5, 7));
    }

    #[test]
    fn too_many_captions_do_not_fit() {
        assert_eq!(Sides::choose(262_145, None, None), Err(262_144));
        assert_eq!(Sides::choose(1025, Some(2), None), Err(1024));
        assert_eq!(Sides::choose(1537, None, Some(3)), Err(1536));
        assert_eq!(Sides::choose(10, Some(3), Some(3)), Err(9));
        assert_eq!(Sides::choose(usize::MAX, None, None), Err(262_144));
    }
}
