//! Calls about wear reports, made over guarded buffers.

use crate::{Guarded, Interface, Library, Reference};

/// Adds a result; gives the answer, and the report as it is after.
///
/// # Panics
///
/// Panics where the answer isn't 0, 7 or 15, where a guard or the marks were
/// written, or where a refusal wrote something.
pub fn add(
    on: &dyn Interface,
    wear: &[u64],
    (marks, answer): (&[u8], u32),
    shift: usize,
) -> (u32, Vec<u64>) {
    let mut report = Guarded::new(wear, shift);
    let mut read = Guarded::new(marks, 5 * shift);
    let given = on.wear_add(report.content_mut(), read.content_mut(), answer);
    let name = on.name();
    assert!(matches!(given, 0 | 7 | 15), "{name} may not answer {given}");
    let intact = report.intact() && read.intact() && read.content() == marks;
    assert!(intact, "{name}: more than the report was written");
    let after = report.content();
    let unchanged = given == 0 || after == wear;
    assert!(unchanged, "{name}: {given} has written {after:?}");
    (given, after.to_vec())
}

/// Compares two shares; gives the answer and the order.
///
/// # Panics
///
/// Panics where the answer isn't 0, 7 or 15, where anything that is only read or
/// a guard was written, where the order is above 2, or where it isn't 0 after a
/// refusal.
pub fn order(on: &dyn Interface, a: &[u64], b: &[u64], shift: usize) -> (u32, u32) {
    let mut guarded = [Guarded::new(a, shift), Guarded::new(b, 5 * shift)];
    let [first, second] = &mut guarded;
    let (given, order) = on.wear_compare(first.content_mut(), second.content_mut());
    let name = on.name();
    assert!(matches!(given, 0 | 7 | 15), "{name} may not answer {given}");
    let intact = guarded.iter().all(Guarded::intact);
    let [first, second] = &guarded;
    assert!(
        intact && first.content() == a && second.content() == b,
        "{name}: a comparison has written"
    );
    let allowed = if given == 0 { 0..=2 } else { 0..=0 };
    assert!(allowed.contains(&order), "{name}: {given} with {order}");
    (given, order)
}

/// [`add`] on both implementations, which must agree.
///
/// # Panics
///
/// Panics where they don't, and where [`add`] does.
pub fn both_add(wear: &[u64], result: (&[u8], u32), shift: usize) -> (u32, Vec<u64>) {
    let library = add(&Library, wear, result, shift);
    let reference = add(&Reference, wear, result, shift);
    let (marks, answer) = (result.0.len(), result.1);
    assert_eq!(
        library, reference,
        "{marks} marks with {answer} added to {wear:?}"
    );
    library
}

/// [`order`] on both implementations, which must agree.
///
/// # Panics
///
/// Panics where they don't, and where [`order`] does.
pub fn both_order(a: &[u64], b: &[u64], shift: usize) -> (u32, u32) {
    let library = order(&Library, a, b, shift);
    assert_eq!(library, order(&Reference, a, b, shift), "{a:?} and {b:?}");
    library
}
