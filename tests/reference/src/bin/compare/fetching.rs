//! What `~` comes to in the bodies of a run, as its scanning tells it.
use reference::scanning::{Handled, Row};

/// What is counted beside the outcomes: a letter that fetched a parameter which is not empty, and the faults at `~` by
/// what stands after it.
pub const WAYS: [&str; 4] = ["letter fetched", "13 at a letter", "12 at a byte", "12 at the end"];

/// Which of the ways a run came to.
pub type Ways = [bool; WAYS.len()];

/// The way that a scan went, if one.
pub fn way(row: &Row) -> Option<usize> {
    match (row.handled, row.parameter()) {
        (Handled::Parameter(b'a'..=b'z'), Some(parameter)) => (!row.ended() && !parameter.is_empty()).then_some(0),
        (Handled::Parameter(b'a'..=b'z'), None) => Some(1),
        (Handled::FetchesNothing(Some(_)), _) => Some(2),
        (Handled::FetchesNothing(None), _) => Some(3),
        _ => None,
    }
}
