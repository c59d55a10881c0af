//! What differs between what is due and what was got.

use std::fmt::Display;

/// Says what differs, and where.
pub type Problem = String;

/// Whether `got` is what is due.
pub fn equal<T: PartialEq + Display>(what: &str, due: T, got: T) -> Result<(), Problem> {
    match due == got {
        true => Ok(()),
        false => Err(format!("{what}: expected {due}, got {got}")),
    }
}

/// Whether something is so.
pub fn holds(what: &str, is: bool) -> Result<(), Problem> {
    equal(what, true, is)
}

/// Whether two lists are the same; names the first place where they differ, as
/// counted from `first`.
pub fn same<T: PartialEq + Display>(
    what: &str,
    first: usize,
    due: &[T],
    got: &[T],
) -> Result<(), Problem> {
    equal(&format!("{what}: how many"), due.len(), got.len())?;
    for (at, (due, got)) in (first..).zip(due.iter().zip(got)) {
        if due != got {
            equal(&format!("{what} {at}"), due, got)?;
        }
    }
    Ok(())
}
