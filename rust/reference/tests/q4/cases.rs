//! Stores with damage, and what each of their lines gives where it is wanted,
//! worked out by hand.
//!
//! As in `q3`, each case goes for any rectangle written: what is found and what
//! is given are told by the places that differ from it.

use super::super::q3::cases::{EIGHT, ELSE, HAMMING, LAST, Places, TWO, nothing, some_of_eight};
use super::{Of, Store};

/// Correct as found.
const CLEAN: Of = (1, 0);

/// Accepted alone, and rewritten.
const REWRITTEN: Of = (1, 1);

/// Mended by trial, and rebuilt: by the visit of its row.
const ROW_TRIAL: Of = (2, 2);
const ROW_REBUILT: Of = (2, 3);

/// The same by the whole repair, and given up by it.
const TRIAL: Of = (3, 2);
const REBUILT: Of = (3, 3);
const LEFT: Of = (3, 4);

/// A store hurt, and for each of its lines the step and the mark.
#[derive(Clone)]
pub struct Case {
    pub says: String,
    pub sides: (usize, usize),
    hurt: Places,
    /// What the whole repair answers.
    pub repair: u32,
    pub of: Vec<Of>,
    left: Places,
}

impl Case {
    /// The store that was written so, hurt.
    pub fn hurt(&self, written: &Store) -> Store {
        self.hurt.flipped_in(written)
    }

    /// The store whose lines are those that are given.
    pub fn given(&self, written: &Store) -> Store {
        self.left.flipped_in(written)
    }

    /// The same with these places left in the lines given.
    fn left(mut self, left: Places) -> Case {
        self.left = left;
        self
    }

    /// The same with every line given as it was found.
    fn left_as_found(mut self) -> Case {
        self.left = self.hurt.clone();
        self
    }
}

/// A store of these sides hurt so: its lines give these steps and marks, and
/// come back as written.
fn case(says: &str, sides: (usize, usize), hurt: Places, repair: u32, of: &[Of]) -> Case {
    assert_eq!(sides.0 * sides.1, of.len(), "{says}");
    Case {
        says: says.to_string(),
        sides,
        hurt,
        repair,
        of: of.to_vec(),
        left: nothing(),
    }
}

/// The same of a 2 by 2 store.
fn two_by_two(says: &str, hurt: Places, repair: u32, of: [Of; 4]) -> Case {
    case(says, (2, 2), hurt, repair, &of)
}

/// So many lines, all of them clean but these.
fn clean_but(count: usize, others: &[(usize, Of)]) -> Vec<Of> {
    let mut of = vec![CLEAN; count];
    others.iter().for_each(|&(n, other)| of[n] = other);
    of
}

/// All cases.
pub fn all() -> impl Iterator<Item = Case> {
    let rows = [samples(), row_read_alone(), parity_of_the_row(), unusable()];
    let whole = [row_in_part(), passes(), others_left(), differing(), wrong()];
    let named = rows.into_iter().chain(whole).flatten();
    named.chain(each_alone()).chain(on_the_way_to_another())
}

/// The samples of document 01.
fn samples() -> Vec<Case> {
    let alike = |lines: &[usize]| lines.iter().fold(nothing(), |hurt, &n| hurt.line(n, TWO));
    let one = |place| {
        let of = [REWRITTEN, CLEAN, CLEAN, CLEAN];
        two_by_two("one place", nothing().line(0, &[place]), 0, of)
    };
    let apart = alike(&[0]).line(1, ELSE);
    let other = || nothing().line(0, &EIGHT);
    let last = || nothing().line(0, &LAST);
    vec![
        two_by_two("nothing hurt", nothing(), 0, [CLEAN; 4]),
        one(0),
        one(542),
        one(543),
        two_by_two("line 0", alike(&[0]), 0, [ROW_REBUILT, CLEAN, CLEAN, CLEAN]),
        two_by_two("apart", apart, 0, [ROW_TRIAL, ROW_TRIAL, CLEAN, CLEAN]),
        two_by_two(
            "two alike",
            alike(&[0, 1]),
            0,
            [REBUILT, REBUILT, CLEAN, CLEAN],
        ),
        // Line 2 is the only faulty one of its row.
        two_by_two(
            "three alike",
            alike(&[0, 1, 2]),
            0,
            [REBUILT, REBUILT, ROW_REBUILT, CLEAN],
        ),
        two_by_two("four alike", alike(&[0, 1, 2, 3]), 11, [LEFT; 4]).left_as_found(),
        two_by_two("another line", other(), 12, [CLEAN; 4]).left(other()),
        two_by_two("the line of place 511", last(), 12, [CLEAN; 4]).left(last()),
    ]
}

/// The lines of the row are read alone before it is visited.
fn row_read_alone() -> Vec<Case> {
    let beside = |places: &[usize]| nothing().line(0, TWO).line(1, places);
    let six = nothing().line(0, &[10, 20]).line(1, &[100, 200, 300, 400]);
    let alike = nothing().line(0, TWO).line(1, TWO);
    let rebuilt = [ROW_REBUILT, REWRITTEN, CLEAN, CLEAN];
    vec![
        two_by_two("one damaged bit beside it", beside(&[9]), 0, rebuilt),
        two_by_two("Hamming bits beside it", beside(&HAMMING), 0, rebuilt),
        case(
            "a mismatch of six places; as found it has seven",
            (2, 3),
            six.line(2, &[500]),
            0,
            &[ROW_TRIAL, ROW_REBUILT, REWRITTEN, CLEAN, CLEAN, CLEAN],
        ),
        case(
            "an empty mismatch; as found it has a place whose trial takes",
            (2, 3),
            alike.line(2, &[0]),
            0,
            &[REBUILT, REBUILT, REWRITTEN, CLEAN, CLEAN, CLEAN],
        ),
    ]
}

/// So is its parity line, and no other.
fn parity_of_the_row() -> Vec<Case> {
    let line = || nothing().line(0, TWO);
    let six = nothing().line(0, &[10, 20]).line(1, &[100, 200, 300, 400]);
    let rebuilt = [ROW_REBUILT, CLEAN, CLEAN, CLEAN];
    let others = line().row(1, TWO).column(0, TWO).column(1, ELSE);
    vec![
        two_by_two("one damaged bit of it", line().row(0, &[5]), 0, rebuilt),
        two_by_two("its Hamming bits", line().row(0, &HAMMING), 0, rebuilt),
        two_by_two(
            "a mismatch of six places; with it as found seven",
            six.row(0, &[500]),
            0,
            [ROW_TRIAL, ROW_REBUILT, CLEAN, CLEAN],
        ),
        two_by_two(
            "an empty mismatch; with it as found one place whose trial takes",
            line().line(1, TWO).row(0, &[0]),
            0,
            [REBUILT, REBUILT, CLEAN, CLEAN],
        ),
        two_by_two("all others unusable", others, 0, rebuilt),
    ]
}

/// The row's parity line is faulty: its visit does nothing.
fn unusable() -> Vec<Case> {
    let line = || nothing().line(0, TWO).row(0, TWO);
    let pair = || nothing().line(0, TWO).line(1, ELSE).row(0, &[7, 8]);
    let without_columns = |hurt: Places| hurt.column(0, TWO).column(1, &[5, 6, 7, 8, 9]);
    let every = without_columns(nothing().row(0, TWO).row(1, ELSE));
    vec![
        two_by_two(
            "the column rebuilds",
            line(),
            0,
            [REBUILT, CLEAN, CLEAN, CLEAN],
        ),
        two_by_two(
            "its column can't be used either: the other lines are clean",
            line().column(0, TWO),
            11,
            [LEFT, CLEAN, CLEAN, CLEAN],
        )
        .left_as_found(),
        two_by_two(
            "nothing can help",
            without_columns(line()),
            11,
            [LEFT, CLEAN, CLEAN, CLEAN],
        )
        .left_as_found(),
        two_by_two(
            "no trial: columns rebuild",
            pair(),
            0,
            [REBUILT, REBUILT, CLEAN, CLEAN],
        ),
        two_by_two(
            "no trial, and nothing can help",
            without_columns(pair()),
            11,
            [LEFT, LEFT, CLEAN, CLEAN],
        )
        .left_as_found(),
        two_by_two(
            "no usable parity line at all, one bit",
            every.line(3, &[9]),
            0,
            [CLEAN, CLEAN, CLEAN, REWRITTEN],
        ),
    ]
}

/// The row's visit mends some of its lines, or needs one to mend another.
fn row_in_part() -> Vec<Case> {
    // The mismatch is {0, 1, 4, 5}. One flip mends line 0; the others are still
    // hurt at {2, 3} after the flip that helps them most.
    let three = nothing()
        .line(0, TWO)
        .line(1, &[2, 3, 4])
        .line(2, &[2, 3, 5]);
    // The mismatch is {0, 6, 7, 8}, and line 0 is mended. Worked out again it
    // would be {1, 6, 7, 8} and mend line 1.
    let again = nothing().line(0, &[0, 1]).line(1, &[1, 5]);
    let beside = |others: &[usize]| nothing().line(0, &[10, 20]).line(1, others);
    vec![
        case(
            "the row is visited once",
            (2, 3),
            again.line(2, &[5, 6, 7, 8]),
            0,
            &[ROW_TRIAL, REBUILT, REBUILT, CLEAN, CLEAN, CLEAN],
        ),
        case(
            "one by trial, and two are left in the row",
            (2, 3),
            three,
            0,
            &[ROW_TRIAL, REBUILT, REBUILT, CLEAN, CLEAN, CLEAN],
        ),
        two_by_two(
            "one by trial, and the other is rebuilt",
            beside(&[100, 200, 300, 400]),
            0,
            [ROW_TRIAL, ROW_REBUILT, CLEAN, CLEAN],
        ),
        two_by_two(
            "seven mismatch places",
            beside(&[100, 200, 300, 400, 500]),
            0,
            [REBUILT, REBUILT, CLEAN, CLEAN],
        ),
    ]
}

/// The whole repair, which may take more than one pass.
fn passes() -> Vec<Case> {
    let three = || nothing().line(0, TWO).line(1, TWO).line(2, TWO).row(1, TWO);
    let block = &[10, 20, 30, 40, 50];
    let rows_blocked = nothing().line(0, &[10, 20]).line(1, block).line(3, block);
    let stairs = [0, 1, 5, 6, 10, 11, 15];
    let chain = stairs.iter().fold(nothing(), |hurt, &n| hurt.line(n, TWO));
    // The last row holds no other.
    let of_stairs = stairs.map(|n| (n, if n == 15 { ROW_REBUILT } else { REBUILT }));
    vec![
        // Column 1 rebuilds line 1, then row 0 line 0, and column 0 line 2.
        two_by_two(
            "its own row, in the second pass",
            three(),
            0,
            [REBUILT, REBUILT, REBUILT, CLEAN],
        ),
        two_by_two(
            "as before, but that column 0 is unusable",
            three().column(0, ELSE),
            11,
            [REBUILT, REBUILT, LEFT, CLEAN],
        )
        .left(nothing().line(2, TWO)),
        two_by_two(
            "by trial in a column",
            rows_blocked.line(2, &[100, 200, 300, 400]),
            0,
            [TRIAL, REBUILT, REBUILT, REBUILT],
        ),
        case("a chain", (4, 4), chain, 0, &clean_but(16, &of_stairs)),
    ]
}

/// Other lines stay faulty, and repair answers 11: that is not this line's
/// affair.
fn others_left() -> Vec<Case> {
    let ring = |lines: [usize; 4]| lines.iter().fold(nothing(), |hurt, &n| hurt.line(n, TWO));
    let narrow = || ring([0, 1, 3, 4]);
    let wide = || ring([0, 1, 4, 5]);
    let lost = |lines: [usize; 4]| lines.map(|n| (n, LEFT)).to_vec();
    let of_narrow = [lost([0, 1, 3, 4]), vec![(7, REWRITTEN), (8, ROW_REBUILT)]].concat();
    let of_wide = [lost([0, 1, 4, 5]), vec![(10, REBUILT), (11, REBUILT)]].concat();
    let hurt = narrow().line(7, &[9]).line(8, TWO);
    let alike = wide().line(10, ELSE).line(11, ELSE);
    vec![
        case(
            "lines of another row",
            (3, 3),
            hurt,
            11,
            &clean_but(9, &of_narrow),
        )
        .left(narrow()),
        case(
            "the same, and columns rebuild",
            (3, 4),
            alike,
            11,
            &clean_but(12, &of_wide),
        )
        .left(wide()),
    ]
}

/// Lines and tables don't agree, and repair answers 12: nor is that.
fn differing() -> Vec<Case> {
    let row = nothing().line(0, &EIGHT).line(3, TWO);
    let columns = nothing().line(2, &EIGHT).line(3, TWO).line(4, TWO);
    vec![
        two_by_two(
            "a row rebuilds",
            row,
            12,
            [CLEAN, CLEAN, CLEAN, ROW_REBUILT],
        )
        .left(nothing().line(0, &EIGHT)),
        case(
            "columns rebuild",
            (2, 3),
            columns,
            12,
            &[CLEAN, CLEAN, CLEAN, REBUILT, REBUILT, CLEAN],
        )
        .left(nothing().line(2, &EIGHT)),
    ]
}

/// Past the bounds of demand 3 a line may be wrong, as repair's is.
fn wrong() -> Vec<Case> {
    let rebuilt = [ROW_REBUILT, CLEAN, CLEAN, CLEAN];
    let both = || nothing().line(0, &EIGHT).line(1, &EIGHT);
    let beside = nothing().line(0, TWO).line(1, &EIGHT);
    let parity = nothing().line(0, TWO).row(0, &EIGHT);
    let six = nothing().line(0, &EIGHT[..6]).line(1, &EIGHT[3..7]);
    vec![
        two_by_two("rebuilt beside another line", beside, 12, rebuilt).left(both()),
        two_by_two("rebuilt from another parity line", parity, 12, rebuilt)
            .left(nothing().line(0, &EIGHT)),
        two_by_two(
            "a trial that makes another line of it",
            six,
            12,
            [ROW_TRIAL, ROW_REBUILT, CLEAN, CLEAN],
        )
        .left(both()),
    ]
}

/// Every line of stores that aren't square hurt alone: its own row rebuilds it.
fn each_alone() -> impl Iterator<Item = Case> {
    let lines = [(2, 5), (5, 2)]
        .into_iter()
        .flat_map(|sides| (0..10).map(move |n| (sides, n)));
    lines.map(|(sides, n)| {
        let hurt = nothing().line(n, TWO);
        case(
            "a line alone",
            sides,
            hurt,
            0,
            &clean_but(10, &[(n, ROW_REBUILT)]),
        )
    })
}

/// The row's parity line on its way to another correct one, and a line that only
/// the row can rebuild: read as written, faulty, and taken for the other.
fn on_the_way_to_another() -> impl Iterator<Item = Case> {
    (0..1usize << EIGHT.len()).map(|bits| {
        let places = some_of_eight(bits);
        let says = format!("places {places:?} of row 1's parity line");
        let hurt = nothing().line(3, TWO).row(1, &places).column(1, TWO);
        let of_line_3 = |of| [CLEAN, CLEAN, CLEAN, of];
        match places.len() {
            0 | 1 => two_by_two(&says, hurt, 0, of_line_3(ROW_REBUILT)),
            2..=6 => two_by_two(&says, hurt, 11, of_line_3(LEFT)).left_as_found(),
            _ => two_by_two(&says, hurt, 0, of_line_3(ROW_REBUILT)).left(nothing().line(3, &EIGHT)),
        }
    })
}
