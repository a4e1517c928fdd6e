//! What is counted of calls for keys, and of the runs of their scripts.
use crate::keys::Keys;
use crate::lending::LONGEST;
use crate::script::Script;
use reference::ends::Report;
use reference::keys::{unmatched, Made, Unmatched, LONGEST_WANTED};
use reference::scanning::Lent;
use reference::signs::Table;

/// A row's name, whether it must occur often enough, and whether a call or a run counts.
type Row<Counts> = (&'static str, bool, Counts);

/// By what was lent and what was made.
type OfCall = fn(&Keys, &Made) -> bool;

/// By the script, what it was lent, and the report.
type OfRun = fn(&Script, &Lent, &Report) -> bool;

pub const CALLS: [Row<OfCall>; 16] = [
    ("0, quotes in quotes", true, |keys, made| {
        made.is_ok() && deepest(&keys.wanted) >= 2
    }),
    ("0, no quote wanted", true, |keys, made| {
        made.is_ok() && deepest(&keys.wanted) == 0 && !keys.wanted.is_empty()
    }),
    ("0, other signs wanted", true, |keys, made| {
        made.is_ok() && keys.wanted.iter().any(|byte| b"$,;~".contains(byte))
    }),
    ("0, output exact", true, |keys, made| made.is_ok() && beside(keys) == 2),
    ("0, empty wanted", true, |keys, made| {
        made.is_ok() && keys.wanted.is_empty()
    }),
    ("34, unquote", true, |keys, made| {
        none(made) && matches!(why(keys), Some(Unmatched::Unquote(_)))
    }),
    ("34, quote left open", true, |keys, made| {
        none(made) && matches!(why(keys), Some(Unmatched::Quote(_)))
    }),
    ("34, as many of each", true, |keys, made| {
        none(made) && count(keys, b'<') == count(keys, b'>')
    }),
    ("34, output too short", true, |keys, made| {
        none(made) && beside(keys) < 2
    }),
    ("5, one byte short", true, |keys, made| {
        *made == Err(5) && beside(keys) == 1
    }),
    ("5, output of 0 bytes", true, |keys, made| {
        *made == Err(5) && keys.output == 0
    }),
    ("2 by wanted", false, |keys, made| {
        *made == Err(2) && keys.output <= LONGEST
    }),
    ("2 by output", false, |keys, made| {
        *made == Err(2) && keys.wanted.len() <= LONGEST_WANTED
    }),
    ("2 before 34", false, |keys, made| {
        *made == Err(2) && why(keys).is_some()
    }),
    ("0, 65534 wanted", false, |keys, made| {
        made.is_ok() && keys.wanted.len() == LONGEST_WANTED
    }),
    ("34, 65534 wanted", false, |keys, made| {
        none(made) && keys.wanted.len() == LONGEST_WANTED
    }),
];

pub const RUNS: [Row<OfRun>; 4] = [
    ("its script, as needed", true, |script, lent, report| {
        report.outcome == 0 && [lent.cells, lent.output] == [0, keys_of(script)]
    }),
    ("its script, 3", true, |script, lent, report| {
        report.outcome == 3 && lent.allowance == keys_of(script) as u64 + 2
    }),
    ("its script, 5", true, |script, lent, report| {
        report.outcome == 5 && lent.output + 1 == keys_of(script)
    }),
    ("its script, own signs", true, |script, _, report| {
        let signs = script.signs();
        report.outcome == 0 && signs.is_some_and(|signs| signs != Table::STANDARD.kinds())
    }),
];

/// The rows that a call counts in.
pub fn of_call<'a>(keys: &'a Keys, made: &'a Made) -> impl Iterator<Item = usize> + 'a {
    (0..CALLS.len()).filter(|&row| CALLS[row].2(keys, made))
}

/// The rows that a run of a script for keys counts in.
pub fn of_run<'a>(script: &'a Script, lent: &'a Lent, report: &'a Report) -> impl Iterator<Item = usize> + 'a {
    (0..RUNS.len()).filter(|&row| RUNS[row].2(script, lent, report))
}

/// How deep quotes are open.
fn deepest(wanted: &[u8]) -> usize {
    let (mut depth, mut deepest) = (0usize, 0);
    for byte in wanted {
        match byte {
            b'<' => depth += 1,
            b'>' => depth = depth.saturating_sub(1),
            _ => {}
        }
        deepest = deepest.max(depth);
    }
    deepest
}

/// How much more output is lent than there are wanted bytes.
fn beside(keys: &Keys) -> usize {
    keys.output.saturating_sub(keys.wanted.len())
}

fn none(made: &Made) -> bool {
    *made == Err(34)
}

fn why(keys: &Keys) -> Option<Unmatched> {
    unmatched(&Table::STANDARD, &keys.wanted)
}

fn count(keys: &Keys, sign: u8) -> usize {
    keys.wanted.iter().filter(|&&byte| byte == sign).count()
}

/// How many keys a script is for.
fn keys_of(script: &Script) -> usize {
    script.text.len() - 2
}
