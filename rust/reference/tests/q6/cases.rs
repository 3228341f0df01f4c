//! Patterns of faulty lines, and what their forecast is, worked out by hand from
//! the rules: a visit rebuilds the only faulty line of its group, a pass visits
//! the rows and then the columns, and the last pass counts even where it rebuilt
//! nothing.
//!
//! A pattern is drawn as a picture, a word for each row: `.` is a whole line, `3`
//! a faulty one that is rebuilt, `4` a faulty one that is left. So a picture shows
//! the pattern and its marks.

use super::{Call, Given};

/// A pattern, and what its forecast gives.
#[derive(Clone, Debug)]
pub struct Case {
    pub says: String,
    pub sides: (usize, usize),
    /// The lines that are faulty are those whose mark isn't 0.
    pub marks: Vec<u8>,
    pub passes: u64,
}

impl Case {
    /// The call for this pattern. The faulty lines have these bytes in turn, and
    /// the buffer for the marks holds nothing but `filling`.
    pub fn call(&self, bytes: &[u8], filling: u8) -> Call {
        let mut bytes = bytes.iter().copied().cycle();
        let mut faulty = self.marks.clone();
        for byte in faulty.iter_mut().filter(|byte| **byte != 0) {
            *byte = bytes.next().unwrap_or(1);
        }
        Call {
            rows: self.sides.0,
            columns: self.sides.1,
            faulty,
            marks: vec![filling; self.marks.len()],
        }
    }

    /// What its forecast gives.
    pub fn due(&self) -> Given {
        Given {
            answer: 0,
            passes: self.passes,
            marks: self.marks.clone(),
        }
    }
}

/// The case of this picture.
fn case(says: &str, picture: &[&str], passes: u64) -> Case {
    let columns = picture[0].len();
    assert!(picture.iter().all(|row| row.len() == columns), "{says}");
    let mark = |line| match line {
        b'.' => 0,
        b'3' => 3,
        b'4' => 4,
        _ => panic!("{says}"),
    };
    Case {
        says: says.to_string(),
        sides: (picture.len(), columns),
        marks: picture.concat().bytes().map(mark).collect(),
        passes,
    }
}

/// All cases of small rectangles.
pub fn all() -> Vec<Case> {
    [
        nothing(),
        each_alone(),
        one_pass(),
        order(),
        several_passes(),
        all_left(),
        some_left(),
    ]
    .concat()
}

/// No line is faulty, and there is no pass.
fn nothing() -> Vec<Case> {
    vec![
        case("nothing, 2 by 2", &["..", ".."], 0),
        case("nothing, 2 by 5", &[".....", "....."], 0),
        case("nothing, 4 by 2", &["..", "..", "..", ".."], 0),
    ]
}

/// Every line of rectangles that aren't square alone: its row rebuilds it.
fn each_alone() -> Vec<Case> {
    let lines = [(2, 5), (5, 2)]
        .into_iter()
        .flat_map(|sides| (0..10).map(move |n| (sides, n)));
    let alone = |(sides, n)| {
        let mut marks = vec![0; 10];
        marks[n] = 3;
        Case {
            says: format!("line {n} alone"),
            sides,
            marks,
            passes: 1,
        }
    };
    lines.map(alone).collect()
}

/// One pass rebuilds every faulty line.
fn one_pass() -> Vec<Case> {
    vec![
        case("two of a row: by their columns", &["33", ".."], 1),
        case("two of a column: by their rows", &["3.", "3."], 1),
        case("two in no common group: by their rows", &["3.", ".3"], 1),
        case("a whole row", &["...", "333"], 1),
        case("a whole column", &[".3", ".3", ".3"], 1),
        // Row 1 rebuilds line 2; then each column has one left.
        case("three of four", &["33", "3."], 1),
        // Row 0 rebuilds line 1.
        case("three of four, turned round", &[".3", "33"], 1),
        // Rows 1 and 2 rebuild, then columns 0 and 1.
        case(
            "two of a row and two of another column",
            &["33.", "..3", "..3"],
            1,
        ),
        // Row 1 rebuilds its line, columns 0 and 1 theirs.
        case(
            "two of a row and two of a column that meet",
            &["33.", ".3."],
            1,
        ),
        // Rows 0 and 2 rebuild; column 1 then has the middle alone.
        case("a cross", &[".3.", "333", ".3."], 1),
        // Row 1 rebuilds its line, then each column has one.
        case("a row and one below", &["33333", "3...."], 1),
        // Rows 1 and 2 rebuild, then each column has one.
        case("one below each", &["33", "3.", ".3"], 1),
    ]
}

/// Rows come before columns in a pass, and each visit finds what those before it
/// left.
fn order() -> Vec<Case> {
    vec![
        // Rows 0 and 2 rebuild the ends, then the columns the middle. With the
        // columns first it would be two passes.
        case("ends that are alone in their rows", &["3.", "33", ".3"], 1),
        // Both rows have two. Columns 0 and 2 rebuild the ends; in the second
        // pass the rows rebuild the middle. With the columns first it would be
        // one pass.
        case("ends that are alone in their columns", &["33.", ".33"], 2),
        // Row 2 rebuilds the end, column 2 the line above it, column 0 the other
        // end. In the second pass rows 0 and 1 rebuild the rest.
        case("an end of each kind", &["33.", ".33", "..3"], 2),
        // Row 0 rebuilds an end, columns 0 and 2 rebuild (1, 0) and the other
        // end; rows 1 and 2 the rest.
        case("the same, turned over", &["3..", "33.", ".33"], 2),
    ]
}

/// Every line is rebuilt, and it takes several passes.
fn several_passes() -> Vec<Case> {
    vec![
        // First (3, 3) by its row, (0, 0) and (2, 3) by their columns. Then
        // (0, 1) and (2, 2) by rows, (1, 1) and (1, 2) by columns.
        case("a staircase", &["33..", ".33.", "..33", "...3"], 2),
        // Two rows a pass, from both ends: three lines, then four each time.
        case(
            "a long staircase",
            &[
                "33......", ".33.....", "..33....", "...33...", "....33..", ".....33.", "......33",
                ".......3",
            ],
            4,
        ),
        // The ends (0, 0) and (3, 4) by columns; (0, 1) and (3, 3) by rows,
        // (1, 1) and (2, 3) by columns; (1, 2) and (2, 2) by rows.
        case(
            "a staircase whose ends are alone in their columns",
            &["33...", ".33..", "..33.", "...33"],
            3,
        ),
        // As "a staircase", rows and columns in another order: rows 2, 0, 3, 1
        // and columns 1, 3, 0, 2 of this are its first to last.
        case(
            "a staircase in another order",
            &["3..3", "..3.", ".3.3", "3.3."],
            2,
        ),
        // Rows 2 and 3 rebuild, then columns 1, 2 and 3. In the second pass rows
        // 0 and 1 rebuild what is left of column 0.
        case("three branches", &["333.", "3..3", ".3..", "..3."], 2),
    ]
}

/// No group has exactly one faulty line: the first pass rebuilds nothing, and is
/// the last.
fn all_left() -> Vec<Case> {
    vec![
        case("a block", &["44", "44"], 1),
        case("a block in a corner", &["....", "..44", "..44"], 1),
        case("four lines far apart", &["4..4", "....", "4..4"], 1),
        case("every line", &["4444", "4444", "4444"], 1),
        case("a ring of six", &["44.", ".44", "4.4"], 1),
        case("a ring of eight", &["44..", ".44.", "..44", "4..4"], 1),
        case("two blocks", &["44..", "44..", "..44", "..44"], 1),
        // The line (1, 3) is in no ring, but neither group lets it go.
        case(
            "a line between two blocks",
            &["44...", "44.4.", ".....", "...44", "...44"],
            1,
        ),
    ]
}

/// Some lines are rebuilt, some left: the last pass rebuilds nothing, and counts.
fn some_left() -> Vec<Case> {
    vec![
        case("a line apart from a block", &["44.", "44.", "..3"], 2),
        case("a line in a block's row", &["443", "44.", "..."], 2),
        case("a line in a block's column", &["44.", "44.", "3.."], 2),
        // Columns 0, 2 and 4 rebuild; two of each row are left.
        case("a row and two below", &["34343", ".4.4."], 2),
        // Rows 1, 3 and 4 rebuild; two of each column are left.
        case(
            "a column and two beside it",
            &["44", "3.", "44", "3.", "3."],
            2,
        ),
        // (3, 3) and (2, 3), then (2, 2) and (1, 2), then nothing.
        case(
            "a staircase down from a block",
            &["44..", "443.", "..33", "...3"],
            3,
        ),
        // (0, 0) by its column; (0, 1) by its row, (1, 1) by its column; (1, 2)
        // by its row; nothing.
        case(
            "a staircase up from a block",
            &["33...", ".33..", "..44.", "..44."],
            4,
        ),
        // Columns 0 and 3 rebuild; then row 0 its other line; then nothing.
        case(
            "a block with lines hung on it",
            &["33...", ".443.", ".44..", "....."],
            3,
        ),
    ]
}

/// The staircase of a square of this side, from the first line to the last: in
/// each row the line on the diagonal, and but for the last row the next one.
fn staircase(side: usize) -> Vec<u8> {
    let mut marks = vec![0; side * side];
    for row in 0..side {
        marks[row * side + row] = 3;
        if row + 1 < side {
            marks[row * side + row + 1] = 3;
        }
    }
    marks
}

/// Patterns of squares of this side, which is even and at least 4, and of
/// rectangles two lines wide.
pub fn large(side: usize) -> Vec<Case> {
    let square = |says: &str, marks, passes| Case {
        says: format!("{says}, side {side}"),
        sides: (side, side),
        marks,
        passes,
    };
    let last = side * side - 1;
    let mut corner = vec![0; side * side];
    corner[last] = 3;
    // The last row's line in the first column closes the staircase.
    let mut ring = staircase(side);
    ring[last + 1 - side] = 3;
    ring.iter_mut().for_each(|mark| *mark += *mark / 3);
    // The line at (1, 0) makes its upper end a block. Each pass rebuilds two lines
    // at its lower end, of 2 * side - 4 in all; then one rebuilds nothing.
    let mut from_block = staircase(side);
    for n in [0, 1, side, side + 1] {
        from_block[n] = 4;
    }
    let half = side as u64 / 2;
    let squares = [
        square("nothing", vec![0; side * side], 0),
        square("every line", vec![4; side * side], 1),
        square("the last line", corner, 1),
        // Three lines in the first pass, four in each other: 2 * side - 1.
        square("a staircase", staircase(side), half),
        square("a ring", ring, 1),
        square("a staircase from a block", from_block, 2 * half - 1),
    ];
    squares.into_iter().chain(narrow(side)).collect()
}

/// Rectangles of this side and two: every line but the last, and but the last two.
fn narrow(side: usize) -> Vec<Case> {
    let lines = 2 * side;
    let narrow = |says: &str, sides, marks, passes| Case {
        says: format!("{says}, sides {sides:?}"),
        sides,
        marks,
        passes,
    };
    // The last line's column, or its row, has one faulty line and rebuilds it. All
    // other groups have two or more.
    let mut wide = vec![4; lines];
    (wide[side - 1], wide[lines - 1]) = (3, 0);
    let mut high = vec![4; lines];
    (high[lines - 2], high[lines - 1]) = (3, 0);
    let mut pairs = vec![4; lines];
    (pairs[lines - 2], pairs[lines - 1]) = (0, 0);
    vec![
        narrow("all but the last", (2, side), wide, 2),
        narrow("all but the last", (side, 2), high, 2),
        narrow("all but the last two", (side, 2), pairs, 1),
        narrow(
            "one row",
            (2, side),
            [vec![0; side], vec![3; side]].concat(),
            1,
        ),
        narrow("one column", (side, 2), [0, 3].repeat(side), 1),
    ]
}

/// Calls that are refused, each with its answer. In their patterns lines are
/// faulty, and more than one thing may be wrong: the sides are tested first.
pub fn refused() -> Vec<(Call, u32)> {
    let mut cases = vec![];
    let mut refused = |(rows, columns), (faulty, marks), answer| {
        let call = Call {
            rows,
            columns,
            faulty: [0, 1, 255, 4].into_iter().cycle().take(faulty).collect(),
            marks: vec![0x5A; marks],
        };
        cases.push((call, answer));
    };
    for (sides, lines) in wrong_sides() {
        for lengths in [(lines, lines), (lines + 1, lines), (lines, 0), (7, 8)] {
            refused(sides, lengths, 2);
        }
    }
    let others = [0, 1, 2, 3, 5, 7, 12, 420, 65_542];
    for other in others {
        refused((2, 3), (other, 6), 7);
        refused((3, 2), (6, other), 7);
        refused((2, 3), (other, other), 7);
    }
    for lengths in [(5, 7), (7, 5), (0, 12), (12, 0)] {
        refused((2, 3), lengths, 7);
    }
    let most = 512 * 512;
    for other in [most - 1, most + 1, 0, 512] {
        refused((512, 512), (other, most), 7);
        refused((512, 512), (most, other), 7);
    }
    cases
}

/// Sides of which one or both are wrong, and how many lines they would have: as
/// far as they are few.
fn wrong_sides() -> Vec<((usize, usize), usize)> {
    let few = [0, 1, 513];
    let right = [2, 4, 512];
    let pairs = few.into_iter().flat_map(|wrong| {
        let beside = right.into_iter().chain(few);
        beside.flat_map(move |side| [(wrong, side), (side, wrong)])
    });
    let mut sides: Vec<((usize, usize), usize)> = pairs
        .map(|(rows, columns)| ((rows, columns), rows * columns))
        .collect();
    // In fewer bits these are 2, or their products are 4 or 0.
    for wrong in [
        65_538,
        (1 << 32) + 2,
        (1 << 63) + 2,
        1 << 63,
        1 << 32,
        usize::MAX,
    ] {
        let pairs = [(wrong, 2), (2, wrong), (wrong, wrong)];
        sides.extend(pairs.map(|sides| (sides, 4)));
        sides.extend(pairs.map(|sides| (sides, 0)));
    }
    sides
}
