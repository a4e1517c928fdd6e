//! What a run comes to, in document 01's words.
use std::fmt;

/// What sort of end an outcome is.
#[derive(Clone, Copy, Debug, PartialEq, Eq)]
pub enum Sort {
    /// "A run finishes with 0 or 1".
    Finish,
    /// What is lent is refused before the first scan: its sizes, its signs by request Two, or its runs of numbers by
    /// request Eight.
    Refusal,
    /// What is lent does not suffice. "Outcomes 3, 4 and 5" substitution "does not have".
    Want,
    /// "a fault of the text is an outcome from 10 to 24"; request Five has "33, a fault of the text", and request Nine
    /// "36, a fault of the text".
    Fault,
}

/// The sort of an outcome; none for a number that is no outcome.
pub fn sort(outcome: u64) -> Option<Sort> {
    match outcome {
        0..=1 => Some(Sort::Finish),
        2 | 30..=32 | 35 => Some(Sort::Refusal),
        3..=5 => Some(Sort::Want),
        10..=24 | 33 | 36 => Some(Sort::Fault),
        _ => None,
    }
}

/// The six numbers that a run reports, in document 01's order.
#[repr(C)]
#[derive(Clone, Copy, Debug, PartialEq, Eq)]
pub struct Report {
    pub outcome: u64,
    pub read: u64,
    pub written: u64,
    pub scans: u64,
    pub most: u64,
    pub live: u64,
}

impl Report {
    pub fn is(&self, sort_of_end: Sort) -> bool {
        sort(self.outcome) == Some(sort_of_end)
    }
}

/// "the six report values in the order above, decimal, single spaces"
impl fmt::Display for Report {
    fn fmt(&self, to: &mut fmt::Formatter) -> fmt::Result {
        let Report {
            outcome,
            read,
            written,
            scans,
            most,
            live,
        } = self;
        write!(to, "{outcome} {read} {written} {scans} {most} {live}")
    }
}

/// A definition that stands: its name, its value now, and the length of the value that it was defined with. By request
/// Nine "definitions standing are compared by" the mark of LOCK "too".
#[derive(Clone, Debug, PartialEq, Eq)]
pub struct Standing {
    pub name: Vec<u8>,
    pub value: Vec<u8>,
    pub defined: usize,
    pub locked: bool,
}

/// The report, the bytes written with an origin and a rule for each, and the definitions standing, newest first,
/// built-ins aside.
#[derive(Clone, Debug, PartialEq, Eq)]
pub struct End {
    pub report: Report,
    pub output: Vec<u8>,
    pub origins: Vec<u32>,
    pub rules: Vec<u32>,
    pub standing: Vec<Standing>,
}

impl End {
    /// The end of a call that is refused before the first scan: "all counts 0; nothing touched".
    pub fn refused(outcome: u64) -> End {
        End {
            report: Report {
                outcome,
                read: 0,
                written: 0,
                scans: 0,
                most: 0,
                live: 0,
            },
            output: Vec::new(),
            origins: Vec::new(),
            rules: Vec::new(),
            standing: Vec::new(),
        }
    }
}
