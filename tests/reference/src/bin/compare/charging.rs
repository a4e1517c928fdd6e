//! How the charge of a run rises and falls, as its scanning tells it.
use reference::ends::Report;
use reference::scanning::{Gone, Handled, Row};

/// What is counted beside the outcomes: definitions that went with the list of a built-in, or with that of a body; a
/// highest charge that came after such; 4 after such; and 4 where the charge was about to rise above a record that it
/// had fallen from, as it does with plenty lent.
pub const WAYS: [&str; 5] = [
    "gone with a built-in",
    "gone with a body",
    "highest after gone",
    "4 after gone",
    "4 at an inner record",
];

/// Which of the ways a run came to.
pub type Ways = [bool; WAYS.len()];

/// The course of the charge, scan by scan.
#[derive(Default)]
pub struct Course {
    gone: Gone,
    with_built_in: bool,
    with_body: bool,
    /// The highest charge so far, and whether definitions had gone before it.
    highest: usize,
    highest_after_gone: bool,
    /// Whether the charge has fallen since.
    fallen: bool,
    /// The records that the charge has fallen from, each higher than the one before.
    records: Vec<usize>,
}

impl Course {
    pub fn follow(&mut self, row: &Row) {
        self.rise(row.most());
        self.fall(row);
    }

    fn rise(&mut self, most: usize) {
        if most > self.highest {
            self.highest = most;
            self.highest_after_gone = self.gone.definitions > 0;
            self.fallen = false;
        }
    }

    /// "A list's charge ends with its call", so that the charge is below its highest then.
    fn fall(&mut self, row: &Row) {
        let before = std::mem::replace(&mut self.gone, row.gone());
        if self.gone.calls == before.calls {
            return;
        }
        self.fallen = true;
        if self.records.last() != Some(&self.highest) {
            self.records.push(self.highest);
        }
        let with_list = self.gone.definitions > before.definitions;
        match row.handled {
            Handled::EndOfBody => self.with_body |= with_list,
            _ => self.with_built_in |= with_list,
        }
    }

    /// The records above which the charge rose later.
    pub fn inner_records(&self) -> &[usize] {
        let inner = self.records.partition_point(|&record| record < self.highest);
        &self.records[..inner]
    }

    /// The ways of the run with this report, of a script whose charge comes so high with plenty lent.
    pub fn ways(&self, report: &Report, with_plenty: u64) -> Ways {
        let refused = report.outcome == 4;
        [
            self.with_built_in,
            self.with_body,
            self.highest_after_gone,
            refused && self.gone.definitions > 0,
            refused && self.fallen && report.most < with_plenty,
        ]
    }
}
