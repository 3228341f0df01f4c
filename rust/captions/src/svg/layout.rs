//! Where everything stands in the picture.

use std::fmt::{self, Formatter};

use sudoku::Mark;

/// Room around everything.
pub const EDGE: usize = 24;

/// Room for the title, and for the numbers above and left of the cells.
const TITLE: usize = 52;
const NUMBERS: usize = 30;

/// Height of a line of the legend.
pub const LEGEND_LINE: usize = 22;

/// The least width, for the legend's sake.
const LEAST_WIDTH: usize = 580;

/// The greatest cell, and the least; between them the cells fill this width.
const GREATEST_CELL: usize = 24;
const LEAST_CELL: usize = 3;
const CELLS_WIDTH: usize = 1200;

/// Cells of this size are parted by a line, and those of that have a letter.
const PARTED_CELL: usize = 6;
const LETTER_CELL: usize = 12;

/// Stores with a side above this have every tenth row and column numbered.
const FEW: usize = 40;

/// Where everything stands.
pub struct Layout {
    pub rows: usize,
    pub columns: usize,
    pub cell: usize,
    pub gap: usize,
}

impl Layout {
    pub fn new(rows: usize, columns: usize) -> Layout {
        let fitting = CELLS_WIDTH / rows.max(columns).max(1);
        let cell = fitting.clamp(LEAST_CELL, GREATEST_CELL);
        Layout {
            rows,
            columns,
            cell,
            gap: usize::from(cell >= PARTED_CELL),
        }
    }

    /// Whether a cell has room for a letter.
    pub fn has_letters(&self) -> bool {
        self.cell >= LETTER_CELL
    }

    pub fn left(&self) -> usize {
        EDGE + NUMBERS
    }

    pub fn top(&self) -> usize {
        EDGE + TITLE + NUMBERS
    }

    pub fn x(&self, column: usize) -> usize {
        self.left() + column * self.cell
    }

    pub fn y(&self, row: usize) -> usize {
        self.top() + row * self.cell
    }

    pub fn legend(&self) -> usize {
        self.y(self.rows) + EDGE
    }

    pub fn width(&self) -> usize {
        LEAST_WIDTH.max(self.x(self.columns) + EDGE)
    }

    pub fn height(&self) -> usize {
        self.legend() + Mark::ALL.len() * LEGEND_LINE + EDGE
    }

    /// How far apart the numbers of rows and columns are.
    pub fn step(&self) -> usize {
        if self.rows.max(self.columns) > FEW {
            10
        } else {
            1
        }
    }

    /// The start of a rectangle for so many cells of a row.
    pub fn write_cells(
        &self,
        f: &mut Formatter<'_>,
        row: usize,
        column: usize,
        count: usize,
    ) -> fmt::Result {
        let (x, y) = (self.x(column), self.y(row));
        let width = (count * self.cell).saturating_sub(self.gap);
        let height = self.cell.saturating_sub(self.gap);
        write!(
            f,
            r#"<rect x="{x}" y="{y}" width="{width}" height="{height}""#
        )
    }
}
