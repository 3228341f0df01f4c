//! Forecasts, made over guarded buffers.

use reference::draw::forecast::{Call, Given};

use crate::{Guarded, Interface, Library, Reference};

/// Makes a forecast.
///
/// # Panics
///
/// Panics where the answer isn't 0, 2 or 7, where a guard or the pattern was
/// written, where a refusal wrote something or gave passes, or where no pattern
/// like this one has such marks and passes.
pub fn forecast(on: &dyn Interface, call: &Call, shift: usize) -> Given {
    let (rows, columns) = (call.rows, call.columns);
    let mut marks = Guarded::new(&call.marks, shift);
    let mut pattern = Guarded::new(&call.faulty, 5 * shift);
    let (answer, passes) = on.forecast(rows, columns, pattern.content_mut(), marks.content_mut());
    let name = on.name();
    assert!(
        matches!(answer, 0 | 2 | 7),
        "{name} may not answer {answer}"
    );
    let intact = marks.intact() && pattern.intact() && pattern.content() == call.faulty;
    assert!(intact, "{name}: more than the marks was written");
    let given = Given {
        answer,
        passes,
        marks: marks.content().to_vec(),
    };
    if answer == 0 {
        given.expect_words(call, name);
    } else {
        let untouched = given.marks == call.marks && passes == 0;
        assert!(untouched, "{name}: {answer} has written or has passes");
    }
    given
}

/// [`forecast`] on both implementations, which must agree.
///
/// # Panics
///
/// Panics where they don't, and where [`forecast`] does.
pub fn both_forecast(call: &Call, shift: usize) -> Given {
    let library = forecast(&Library, call, shift);
    let reference = forecast(&Reference, call, shift);
    let sides = (call.rows, call.columns);
    let numbers = |given: &Given| (given.answer, given.passes);
    assert_eq!(numbers(&library), numbers(&reference), "{sides:?}");
    let differs = (0..library.marks.len()).find(|&n| library.marks[n] != reference.marks[n]);
    assert_eq!(differs, None, "{sides:?}: a mark that differs");
    library
}
