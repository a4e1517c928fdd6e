//! What is counted of runs whose signs are lent.
use crate::refused_signs::NEVER;
use crate::script::Script;
use reference::ends::Report;
use reference::signs::Table;

/// Its name, whether it must occur often enough, and whether a run counts.
type Row = (&'static str, bool, Counts);

/// Whether a run counts, by the signs lent, which may be refused, and the report.
type Counts = fn(&[u8], &Report) -> bool;

/// Refused tables that break a check in one way alone are counted; those that break it in several are not.
pub const ROWS: [Row; 14] = [
    ("30, length", true, |signs, report| {
        report.outcome == 30 && signs.len() != 256
    }),
    ("30, entry", true, |signs, report| {
        report.outcome == 30 && signs.len() == 256
    }),
    ("31, no byte", true, |signs, report| {
        report.outcome == 31 && bytes_of_signs(signs).all(|bytes| bytes <= 1)
    }),
    ("31, several bytes", true, |signs, report| {
        report.outcome == 31 && bytes_of_signs(signs).all(|bytes| bytes >= 1)
    }),
    ("32, capital letter", true, |signs, report| {
        report.outcome == 32 && never_but(signs, NEVER[0])
    }),
    ("32, small letter", true, |signs, report| {
        report.outcome == 32 && never_but(signs, NEVER[1])
    }),
    ("32, digit", true, |signs, report| {
        report.outcome == 32 && never_but(signs, NEVER[2])
    }),
    ("32, + - *", true, |signs, report| {
        report.outcome == 32 && never_but(signs, NEVER[3])
    }),
    ("0, bodies, other signs", true, |signs, report| {
        signs != Table::STANDARD.kinds() && finished_after_bodies(report)
    }),
    ("2 before 30 to 32", false, |signs, report| {
        report.outcome == 2 && Table::accepted(signs).is_err()
    }),
    ("signs of length 0", false, |signs, _| signs.is_empty()),
    ("of length 255", false, |signs, _| signs.len() == 255),
    ("of length 257", false, |signs, _| signs.len() == 257),
    ("of length 65536", false, |signs, _| signs.len() == 65_536),
];

/// The rows that a run counts in.
pub fn rows(script: &Script, report: &Report) -> Vec<usize> {
    let Some(signs) = script.signs() else {
        return Vec::new();
    };
    (0..ROWS.len()).filter(|&row| ROWS[row].2(signs, report)).collect()
}

/// How many bytes each of the six signs has.
fn bytes_of_signs(signs: &[u8]) -> impl Iterator<Item = usize> + '_ {
    (1..=6).map(|sign| signs.iter().filter(|&&kind| kind == sign).count())
}

/// Whether no sign is a byte that is never one, but for these.
fn never_but(signs: &[u8], these: &[u8]) -> bool {
    let others = NEVER.iter().filter(|&&bytes| bytes != these);
    others.copied().flatten().all(|&byte| signs[usize::from(byte)] == 0)
}

/// More scans than bytes of text.
pub fn finished_after_bodies(report: &Report) -> bool {
    report.outcome == 0 && report.scans > report.read + 1
}
