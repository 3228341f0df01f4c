//! What the peer gives, in the shapes of the reference's tests.

use reference::draw::{Call, Outcome};

/// What its repair gives for a call.
pub fn repair(call: &Call) -> Outcome {
    let mut outcome = Outcome::before(call);
    let given = peer::repair(
        call.rows,
        call.columns,
        &call.lines,
        &call.row_table,
        &call.column_table,
        peer::Out {
            lines: &mut outcome.lines,
            marks: &mut outcome.marks,
            row_table: &mut outcome.row_table,
            column_table: &mut outcome.column_table,
        },
    );
    (outcome.answer, outcome.passes) = (given.answer, given.passes);
    outcome
}
