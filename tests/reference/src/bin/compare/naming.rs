//! What empty names come to in a run, as its scanning tells it.
use reference::scanning::{Handled, Row};

/// What is counted beside the outcomes: 33 by where DEF is called, and by what stood in the place of its name; what comes
/// before it; the ends at an empty name that is looked up; and a definition that hides DEF and takes an empty name.
pub const WAYS: [&str; 14] = [
    "33 in the text",
    "33 in a body",
    "33 in another's list",
    "33, nothing written",
    "33, quotes",
    "33, a body's call",
    "33, a built-in's call",
    "33, fetched",
    "4 in place of 33",
    "13 of DEF, empty name",
    "15, empty name called",
    "15 of VAL, empty name",
    "15 of UPDATE, empty",
    "DEF hidden, empty name",
];

/// Which of the ways a run came to.
pub type Ways = [bool; WAYS.len()];

/// What stood in the first parameter of a call: quotes, a call that read a body, one of a built-in, and a parameter that
/// was fetched. They are counted in this order after the way of nothing.
type Stood = [bool; 4];
const NOTHING: usize = 3;

/// The names of a run, scan by scan.
#[derive(Default)]
pub struct Names {
    /// For each open call, outermost first.
    stood: Vec<Stood>,
    /// How many calls have ended.
    ended: usize,
    ways: Ways,
}

impl Names {
    pub fn ways(&self) -> Ways {
        self.ways
    }

    pub fn follow(&mut self, row: &Row) {
        self.note(row);
        let way = match row.applied() {
            Some(_) if row.outcome == Some(33) => return self.refused(row),
            Some(list) => end(row, &list),
            None => hidden(row),
        };
        if let Some(way) = way {
            self.ways[way] = true;
        }
    }

    /// What the scan was, if the innermost open call is then at its first parameter.
    fn note(&mut self, row: &Row) {
        let (open, commas) = row.open();
        self.stood.resize(open, Stood::default());
        let before = std::mem::replace(&mut self.ended, row.gone().calls);
        let sort = match row.handled {
            Handled::Byte(_) if row.in_quotes() => 0,
            Handled::Byte(_) if row.begun().is_some() => 1,
            Handled::EndOfBody => 1,
            Handled::Byte(_) if self.ended > before => 2,
            Handled::Parameter(_) => 3,
            _ => return,
        };
        if let Some(stood) = self.stood.last_mut().filter(|_| commas == 1) {
            stood[sort] = true;
        }
    }

    fn refused(&mut self, row: &Row) {
        let in_body = !row.bodies().is_empty();
        self.ways[usize::from(in_body)] = true;
        self.ways[2] |= self.stood.len() > 1;
        let stood = self.stood.last().copied().unwrap_or_default();
        self.ways[NOTHING] |= !stood.contains(&true);
        for (way, stood) in (NOTHING + 1..).zip(stood) {
            self.ways[way] |= stood;
        }
    }
}

/// The way of an end at `;`. A name that is found there is not one's own, as that has a body.
fn end(row: &Row, list: &[&[u8]]) -> Option<usize> {
    let own = || row.definitions().any(|(name, _)| name == b"DEF");
    match (row.outcome?, list) {
        (4, [b"DEF", b"", _, ..]) if !own() => Some(8),
        (13, [b"DEF", b""]) => Some(9),
        (15, [b"", ..]) => Some(10),
        (15, [b"VAL", b"", ..]) => Some(11),
        (15, [b"UPDATE", b"", ..]) => Some(12),
        _ => None,
    }
}

/// The way of a body that begins.
fn hidden(row: &Row) -> Option<usize> {
    match row.begun()?[..] {
        [b"DEF", b"", _, ..] => Some(13),
        _ => None,
    }
}
