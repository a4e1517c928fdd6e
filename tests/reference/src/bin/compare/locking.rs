//! What LOCK, and UPDATE of what it marked, come to in a run, as its scanning tells it.
use crate::script::Script;
use reference::ends::Report;
use reference::scanning::{Handled, Row};
use reference::signs::{Table, BUILT_INS};

/// What is counted beside the outcomes: 36 by where UPDATE is called, by the checks that would come after it, and by
/// what became of the definition since it was locked; UPDATE that is no 36, beside one that is locked or was; the ends
/// at LOCK; what LOCK marks, and where; a definition that hides it; and what a locked definition is used for.
pub const WAYS: [&str; 31] = [
    "36 in the text",
    "36 in a body",
    "36 in another's list",
    "36 before 20",
    "36 before 21",
    "36, found again",
    "36, moved",
    "36, hides a built-in",
    "4 in place of 36",
    "UPDATE above a locked",
    "UPDATE, a locked went",
    "13 of LOCK",
    "15 of LOCK",
    "19 of LOCK",
    "19, the name LOCK",
    "LOCK in the text",
    "LOCK in a body",
    "LOCK collected",
    "LOCK, its own list's",
    "LOCK, body being read",
    "LOCK of one locked",
    "LOCK above another",
    "LOCK, surplus",
    "LOCK, other signs",
    "LOCK, output full",
    "4 at LOCK",
    "3 before LOCK",
    "3 after LOCK",
    "LOCK hidden",
    "VAL of a locked",
    "a locked one called",
];

const IN_TEXT: usize = 0;
const IN_LIST: usize = 2;
const BEFORE_20: usize = 3;
const BEFORE_21: usize = 4;
const FOUND_AGAIN: usize = 5;
const MOVED: usize = 6;
const HIDES: usize = 7;
const PLACE_OF_36: usize = 8;
const ABOVE_LOCKED: usize = 9;
const LOCKED_WENT: usize = 10;
const ENDS_OF_LOCK: usize = 11;
const OF_THE_NAME: usize = 14;
const MARKS: usize = 15;
const COLLECTED: usize = 17;
const OWN_LIST: usize = 18;
const BEING_READ: usize = 19;
const LOCKED_BEFORE: usize = 20;
const ABOVE_ANOTHER: usize = 21;
const SURPLUS: usize = 22;
const OTHER_SIGNS: usize = 23;
const OUTPUT_FULL: usize = 24;
const CELLS_AT_LOCK: usize = 25;
const SCANS_BEFORE: usize = 26;
const SCANS_AFTER: usize = 27;
const HIDDEN: usize = 28;
const VALUE: usize = 29;
const CALLED: usize = 30;

/// Which of the ways a run came to.
pub type Ways = [bool; WAYS.len()];

/// A definition that LOCK marked.
struct Locked {
    name: Vec<u8>,
    made: u64,
    live: bool,
    /// Whether the list of the body that made it has gone since.
    moved: bool,
    /// Whether a newer one of its name was made since, and whether it is found again.
    hidden: bool,
    again: bool,
}

/// The locked definitions of a run, scan by scan.
#[derive(Default)]
pub struct Locks {
    locked: Vec<Locked>,
    /// For each body being read, outermost first, the scan that began it.
    begun: Vec<u64>,
    /// How many definitions have gone.
    gone: usize,
    most: usize,
    /// The scan of the last LOCK that marked, and the charge at the last that came to a new highest.
    last: Option<u64>,
    highest: Option<usize>,
    /// Whether the next scan is the `;` of a LOCK, and whether this one was.
    due: bool,
    acted: bool,
    ways: Ways,
}

impl Locks {
    /// The ways of the run with this report.
    pub fn ways(&self, report: &Report) -> Ways {
        let mut ways = self.ways;
        ways[SCANS_BEFORE] = report.outcome == 3 && self.due;
        ways[SCANS_AFTER] = report.outcome == 3 && self.acted;
        ways
    }

    /// The scan of the last LOCK that marked.
    pub fn last(&self) -> Option<u64> {
        self.last
    }

    /// The charge at the `;` of the last LOCK that came to a new highest.
    pub fn highest(&self) -> Option<usize> {
        self.highest
    }

    pub fn follow(&mut self, script: &Script, row: &Row, output: usize) {
        self.acted = false;
        let list = row.applied().unwrap_or_default();
        match (list.first(), row.outcome) {
            (Some(&name), None) => self.act(script, row, name, &list, output),
            (Some(_), Some(outcome)) => self.end(row, outcome, &list),
            (None, _) => self.body(row),
        }
        if row.gone().definitions > self.gone {
            self.gone = row.gone().definitions;
            self.go(row);
        }
        self.most = row.most();
        self.due = row.due().is_some_and(|list| locks(row, &list));
    }

    /// A built-in that acted.
    fn act(&mut self, script: &Script, row: &Row, name: &[u8], list: &[&[u8]], output: usize) {
        match name {
            b"LOCK" => {
                self.mark(row, list);
                self.ways[OTHER_SIGNS] |= script.checked().as_ref().is_ok_and(|table| *table != Table::STANDARD);
                self.ways[OUTPUT_FULL] |= row.open().0 == 0 && row.output().len() == output;
            }
            b"DEF" => self.define(list[1]),
            b"UPDATE" => self.update(row, list[1]),
            b"VAL" => self.ways[VALUE] |= row.sought().is_some_and(|sought| sought.locked),
            _ => {}
        }
    }

    fn mark(&mut self, row: &Row, list: &[&[u8]]) {
        let Some(sought) = row.sought() else {
            return;
        };
        let live = row.live(sought.made);
        self.ways[MARKS + usize::from(!row.bodies().is_empty())] = true;
        self.ways[COLLECTED] |= row.open().0 > 0;
        self.ways[OWN_LIST] |= !live;
        self.ways[BEING_READ] |= sought.read;
        self.ways[LOCKED_BEFORE] |= sought.locked;
        self.ways[ABOVE_ANOTHER] |= row.definitions().filter(|(name, _)| *name == list[1]).count() > usize::from(live);
        self.ways[SURPLUS] |= list.len() > 2;
        (self.last, self.acted) = (Some(row.scan()), true);
        if row.most() > self.most {
            self.highest = Some(row.most());
        }
        if !sought.locked {
            self.locked.push(Locked {
                name: list[1].to_vec(),
                made: sought.made,
                live,
                moved: false,
                hidden: false,
                again: false,
            });
        }
    }

    fn define(&mut self, name: &[u8]) {
        for locked in self.locked.iter_mut().filter(|it| it.live && it.name == name) {
            locked.hidden = true;
        }
    }

    /// UPDATE that changed a value.
    fn update(&mut self, row: &Row, name: &[u8]) {
        let Some(sought) = row.sought() else {
            return;
        };
        for locked in self.locked.iter().filter(|it| it.name == name) {
            self.ways[ABOVE_LOCKED] |= locked.live && locked.made < sought.made;
            self.ways[LOCKED_WENT] |= !locked.live && locked.made > sought.made;
        }
    }

    /// A body that begins, or that has ended, so that its list went from beneath what it made.
    fn body(&mut self, row: &Row) {
        if let Some(list) = row.begun() {
            self.begun.push(row.scan());
            self.ways[HIDDEN] |= list[0] == b"LOCK";
            self.ways[CALLED] |= row.sought().is_some_and(|sought| sought.locked);
        }
        if row.handled == Handled::EndOfBody && !row.ended() {
            let begun = self.begun.pop().unwrap_or_default();
            self.locked.iter_mut().for_each(|it| it.moved |= it.made > begun);
        }
    }

    /// Definitions went, and what they hid is found again.
    fn go(&mut self, row: &Row) {
        for locked in self.locked.iter_mut().filter(|it| it.live) {
            locked.live = row.live(locked.made);
            if locked.hidden && row.newest(&locked.name) == Some(locked.made) {
                (locked.hidden, locked.again) = (false, true);
            }
        }
    }

    /// The end at a `;`.
    fn end(&mut self, row: &Row, outcome: u64, list: &[&[u8]]) {
        match (outcome, list) {
            (36, [_, _, value, ..]) => self.refused(row, value),
            (4, [b"UPDATE", name, _, ..]) if of_built_in(row, b"UPDATE") => {
                self.ways[PLACE_OF_36] |= self.locked.iter().any(|it| it.is_newest(row, name));
            }
            (4, list) if locks(row, list) => self.ways[CELLS_AT_LOCK] = true,
            (13, [b"LOCK"]) => self.ways[ENDS_OF_LOCK] = true,
            (15, [b"LOCK", _, ..]) => self.ways[ENDS_OF_LOCK + 1] = true,
            (19, [name, of, ..]) => {
                self.ways[ENDS_OF_LOCK + 2] |= *name == b"LOCK";
                self.ways[OF_THE_NAME] |= *of == b"LOCK";
            }
            _ => {}
        }
    }

    fn refused(&mut self, row: &Row, value: &[u8]) {
        let Some(sought) = row.sought() else {
            return;
        };
        self.ways[IN_TEXT + usize::from(!row.bodies().is_empty())] = true;
        self.ways[IN_LIST] = row.open().0 > 1;
        self.ways[BEFORE_20] = sought.read;
        self.ways[BEFORE_21] = value.len() > sought.defined;
        let locked = self.locked.iter().find(|it| it.made == sought.made);
        self.ways[FOUND_AGAIN] = locked.is_some_and(|it| it.again);
        self.ways[MOVED] = locked.is_some_and(|it| it.moved);
        self.ways[HIDES] = locked.is_some_and(|it| BUILT_INS.iter().any(|(name, _)| *name == it.name));
    }
}

impl Locked {
    /// Whether it is what a name is found to be.
    fn is_newest(&self, row: &Row, name: &[u8]) -> bool {
        self.name == name && row.newest(name) == Some(self.made)
    }
}

/// Whether no definition hides a built-in of this name.
fn of_built_in(row: &Row, name: &[u8]) -> bool {
    row.newest(name).is_none()
}

/// Whether a list is one of LOCK, for a definition that stands.
fn locks(row: &Row, list: &[&[u8]]) -> bool {
    match list {
        [b"LOCK", name, ..] => of_built_in(row, b"LOCK") && row.newest(name).is_some(),
        _ => false,
    }
}
