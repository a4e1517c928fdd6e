//! What the lookups of a run find, beside the other definitions of the name's group, as its scanning tells it; and what
//! becomes of definitions when others go. The groups are those of request Thirteen.
use crate::lending;
use crate::script::Script;
use reference::ends::Report;
use reference::scanning::{Handled, Lent, Row};
use reference::signs::{Table, BUILT_INS};

/// What is counted beside the outcomes: a definition that is found behind newer ones of its group, by their number, their
/// names and its own; among how many it is found; one that is found again; one that moved when others of its group went
/// from beneath it, and what is found after that; what is found after definitions of its group went with the own list of
/// a built-in; a name that is not found, and a built-in that is, while definitions of its group stand; and ends by the
/// price of a definition.
pub const WAYS: [&str; 31] = [
    "found behind",
    "behind eight",
    "behind an anagram",
    "behind another sum",
    "behind, above 127",
    "behind, long name",
    "behind, other signs",
    "behind, hides",
    "found among 64",
    "found, 16 in its group",
    "found, all 64 groups",
    "again, a built-in's",
    "again, a body's",
    "moved, found",
    "moved, older found",
    "moved twice, found",
    "moved together, found",
    "moved, UPDATE",
    "moved, LOCK",
    "found after DEF's own",
    "after UPDATE's own",
    "after LOCK's own",
    "after VAL's own",
    "15, its group stands",
    "15, it went",
    "built-in, group stands",
    "19, group stands",
    "built-in found again",
    "4 by the price",
    "exact by the price",
    "4 among 64",
];

const BEHIND: usize = 0;
const BEHIND_EIGHT: usize = 1;
const ANAGRAM: usize = 2;
const ANOTHER_SUM: usize = 3;
const ABOVE_127: usize = 4;
const LONG: usize = 5;
const OTHER_SIGNS: usize = 6;
const HIDES: usize = 7;
const AMONG_MANY: usize = 8;
const MANY_IN_GROUP: usize = 9;
const ALL_GROUPS: usize = 10;
const AGAIN: usize = 11;
const MOVED: usize = 13;
const OLDER: usize = 14;
const TWICE: usize = 15;
const TOGETHER: usize = 16;
const UPDATED: usize = 17;
const LOCKED: usize = 18;
const OWN_LISTS: usize = 19;
const NOT_DEFINED: usize = 23;
const NO_MORE: usize = 24;
const BUILT_IN: usize = 25;
const OF_BUILT_IN: usize = 26;
const BUILT_IN_AGAIN: usize = 27;
const BY_THE_PRICE: usize = 28;
const EXACT: usize = 29;
const REFUSED_AMONG_MANY: usize = 30;

/// The built-ins whose own lists are told apart, in the order of their ways.
const OWN: [&[u8]; 4] = [b"DEF", b"UPDATE", b"LOCK", b"VAL"];

/// So many definitions are many.
const MANY: usize = 64;

/// Which of the ways a run came to.
pub type Ways = [bool; WAYS.len()];

fn sum(name: &[u8]) -> usize {
    name.iter().map(|&byte| usize::from(byte)).sum()
}

/// "by the sum of the name's bytes modulo 64"
fn group(name: &[u8]) -> usize {
    sum(name) % 64
}

fn is_built_in(name: &[u8]) -> bool {
    BUILT_INS.iter().any(|(built_in, _)| *built_in == name)
}

fn anagrams(one: &[u8], other: &[u8]) -> bool {
    let sorted = |name: &[u8]| {
        let mut bytes = name.to_vec();
        bytes.sort_unstable();
        bytes
    };
    one.len() == other.len() && sorted(one) == sorted(other)
}

/// A definition that stands.
struct Named {
    name: Vec<u8>,
    group: usize,
    made: u64,
    /// Whether it is found again since a newer one of its name went with the list of a built-in, or of a body.
    again: [bool; 2],
    /// How often the list of a body went from beneath it, and the scan in which one last did.
    moves: usize,
    moved_at: u64,
    /// Of those of its group that went from beneath it, the scan that made the oldest.
    beneath: Option<u64>,
}

/// The definitions of a run, scan by scan.
#[derive(Default)]
pub struct Finds {
    /// Newest last, as they stood before the scan.
    standing: Vec<Named>,
    /// The names of those that went, and the groups of those that went with the own lists, a bit for each.
    went: Vec<Vec<u8>>,
    own_lists: [u64; OWN.len()],
    /// For each body being read, outermost first, the scan that began it.
    begun: Vec<u64>,
    gone: usize,
    /// The highest charge, and how many definitions stood then.
    most: usize,
    stood: usize,
    ways: Ways,
}

impl Finds {
    /// The ways of the run with this report, of a script whose charge comes so high with plenty lent.
    pub fn ways(&self, lent: &Lent, report: &Report, with_plenty: u64) -> Ways {
        let (mut ways, cells) = (self.ways, lent.cells as u64);
        let (refused, stand) = (report.outcome == 4, self.standing.len());
        // The charge was about to be the highest, one above the cells; by 4 in place of 5 it is no more than they are.
        ways[BY_THE_PRICE] = refused && cells + 1 == with_plenty && stand > 0;
        ways[EXACT] = lending::ended(report) && cells == report.most && self.stood > 0;
        ways[REFUSED_AMONG_MANY] = refused && stand >= MANY;
        ways
    }

    pub fn follow(&mut self, script: &Script, row: &Row) {
        if row.most() > self.most {
            (self.most, self.stood) = (row.most(), self.standing.len());
        }
        let list = row.applied().or_else(|| row.begun());
        if let Some(list) = &list {
            self.look_up(script, row, list);
        }
        if row.begun().is_some() {
            self.begun.push(row.scan());
        }
        let ended = row.handled == Handled::EndOfBody && !row.ended();
        let begun = if ended { self.begun.pop() } else { None };
        self.go(row, begun, list.as_deref().unwrap_or_default());
        if let (Some([b"DEF", name, _, ..]), None, None) = (list.as_deref(), row.begun(), row.outcome) {
            self.define(name, row.scan());
        }
    }

    fn define(&mut self, name: &[u8], made: u64) {
        self.standing.push(Named {
            name: name.to_vec(),
            group: group(name),
            made,
            again: [false; 2],
            moves: 0,
            moved_at: 0,
            beneath: None,
        });
    }

    fn newest(&self, name: &[u8]) -> Option<usize> {
        self.standing.iter().rposition(|it| it.name == name)
    }

    fn stands(&self, group: usize) -> bool {
        self.standing.iter().any(|it| it.group == group)
    }

    /// The lookups of a `;`: of the name, and for VAL, UPDATE and LOCK of the name that they are given. With 10 and 4
    /// there may be none.
    fn look_up(&mut self, script: &Script, row: &Row, list: &[&[u8]]) {
        if matches!(row.outcome, Some(4 | 10)) {
            return;
        }
        match self.newest(list[0]) {
            Some(place) => self.found(script, place),
            None if is_built_in(list[0]) => {
                self.ways[BUILT_IN] |= self.stands(group(list[0]));
                self.ways[BUILT_IN_AGAIN] |= self.went.iter().any(|name| name == list[0]);
                if row.outcome != Some(13) {
                    self.look_up_given(script, list);
                }
            }
            None => self.not_found(list[0]),
        }
    }

    fn look_up_given(&mut self, script: &Script, list: &[&[u8]]) {
        let (way, name) = match list {
            [b"VAL", name, ..] => (None, name),
            [b"UPDATE", name, ..] => (Some(UPDATED), name),
            [b"LOCK", name, ..] => (Some(LOCKED), name),
            _ => return,
        };
        match self.newest(name) {
            Some(place) => {
                self.found(script, place);
                if let Some(way) = way {
                    self.ways[way] |= self.standing[place].beneath.is_some();
                }
            }
            None if is_built_in(name) => self.ways[OF_BUILT_IN] |= self.stands(group(name)),
            None => self.not_found(name),
        }
    }

    fn not_found(&mut self, name: &[u8]) {
        let stands = self.stands(group(name));
        self.ways[NOT_DEFINED] |= stands;
        self.ways[NO_MORE] |= stands && self.went.iter().any(|it| it == name);
    }

    /// The definition at this place is found.
    fn found(&mut self, script: &Script, place: usize) {
        let ways = &mut self.ways;
        let it = &self.standing[place];
        let newer: Vec<&Named> = self.standing[place + 1..]
            .iter()
            .filter(|newer| newer.group == it.group)
            .collect();
        if !newer.is_empty() {
            behind(ways, script, it, &newer);
        }
        let own_lists = self.own_lists.iter().map(|groups| groups >> it.group & 1 == 1);
        for (way, own) in ways[OWN_LISTS..].iter_mut().zip(own_lists) {
            *way |= own;
        }
        ways[AGAIN] |= it.again[0];
        ways[AGAIN + 1] |= it.again[1];
        ways[MOVED] |= it.beneath.is_some();
        ways[TWICE] |= it.beneath.is_some() && it.moves > 1;
        if self.standing.len() >= MANY {
            among_many(ways, &self.standing, it.group);
        }
    }

    /// Definitions go, with the list of the body that began with this scan or else of a built-in.
    fn go(&mut self, row: &Row, begun: Option<u64>, list: &[&[u8]]) {
        let gone = if row.gone().definitions > self.gone {
            self.gone = row.gone().definitions;
            self.taken_away(row)
        } else {
            Vec::new()
        };
        if let Some(begun) = begun {
            self.moved(row.scan(), begun, &gone);
        }
        for gone in &gone {
            self.is_found_again(gone, begun.is_some());
            let own = OWN.iter().position(|name| list.first() == Some(name));
            if let Some(own) = own {
                self.own_lists[own] |= 1 << gone.group;
            }
        }
        let names = gone.into_iter().map(|gone| gone.name);
        self.went.extend(names);
    }

    /// Takes out those that are live no more.
    fn taken_away(&mut self, row: &Row) -> Vec<Named> {
        let live: Vec<u64> = row.made().collect();
        let standing = std::mem::take(&mut self.standing).into_iter();
        let (stays, gone) = standing.partition(|it| live.binary_search(&it.made).is_ok());
        self.standing = stays;
        gone
    }

    /// Those that the body made move.
    fn moved(&mut self, scan: u64, begun: u64, gone: &[Named]) {
        for it in self.standing.iter_mut().rev().take_while(|it| it.made > begun) {
            it.moves += 1;
            it.moved_at = scan;
            let oldest = gone.iter().find(|gone| gone.group == it.group);
            it.beneath = oldest.map(|gone| gone.made).or(it.beneath);
        }
    }

    fn is_found_again(&mut self, gone: &Named, with_body: bool) {
        if let Some(place) = self.newest(&gone.name) {
            let it = &mut self.standing[place];
            it.again[usize::from(with_body)] |= it.made < gone.made;
        }
    }
}

/// The ways of one that is found behind newer ones of its group.
fn behind(ways: &mut Ways, script: &Script, it: &Named, newer: &[&Named]) {
    ways[BEHIND] = true;
    ways[BEHIND_EIGHT] |= newer.len() >= 8;
    ways[ANAGRAM] |= newer.iter().any(|newer| anagrams(&newer.name, &it.name));
    ways[ANOTHER_SUM] |= newer.iter().any(|newer| sum(&newer.name) != sum(&it.name));
    ways[ABOVE_127] |= it.name.iter().any(|&byte| byte > 127);
    ways[LONG] |= it.name.len() > 255;
    ways[OTHER_SIGNS] |= script.checked().as_ref().is_ok_and(|table| *table != Table::STANDARD);
    ways[HIDES] |= is_built_in(&it.name);
    ways[OLDER] |= newer
        .iter()
        .any(|newer| newer.beneath.is_some_and(|gone| it.made < gone));
    ways[TOGETHER] |= newer.iter().any(|newer| it.moves > 0 && newer.moved_at == it.moved_at);
}

/// The ways of one that is found among many.
fn among_many(ways: &mut Ways, standing: &[Named], group: usize) {
    ways[AMONG_MANY] = true;
    ways[MANY_IN_GROUP] |= standing.iter().filter(|it| it.group == group).count() >= 16;
    let groups = standing.iter().fold(0u64, |groups, it| groups | 1 << it.group);
    ways[ALL_GROUPS] |= groups == u64::MAX;
}
