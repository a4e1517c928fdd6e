//! Document 02's request Six: the script for given keys.
use crate::signs::{Checked, Table, LIMIT, QUOTE, UNQUOTE};

/// "The call takes wanted bytes, up to 65,534".
pub const LONGEST_WANTED: usize = 65_534;

/// The script, or the outcome that refuses it.
pub type Made = Result<Vec<u8>, u64>;

/// "That script is the wanted bytes inside one pair of quotes", for signs that may be refused and so much output lent.
pub fn script_for(signs: &Checked, wanted: &[u8], output: usize) -> Made {
    // "2 for wanted bytes over 65,534 or output over 65,536, then the sign checks".
    if wanted.len() > LONGEST_WANTED || output > LIMIT {
        return Err(2);
    }
    let table = signs.as_ref().map_err(|&outcome| outcome)?;
    // "then 34 for none, then 5 for an output shorter than the script".
    if unmatched(table, wanted).is_some() {
        return Err(34);
    }
    let script = [&[table.sign(QUOTE)], wanted, &[table.sign(UNQUOTE)]].concat();
    if output < script.len() {
        return Err(5);
    }
    Ok(script)
}

/// "one 64-bit number, outcome × 4,294,967,296 + length"; the length is "0 if refused".
pub fn number(made: &Made) -> u64 {
    match made {
        Ok(script) => script.len() as u64,
        Err(outcome) => outcome << 32,
    }
}

/// Why no script finishes with some bytes as its output.
#[derive(Clone, Copy, Debug, PartialEq, Eq)]
pub enum Unmatched {
    /// The unquote at this place comes with no quote open.
    Unquote(usize),
    /// The quote at this place, the innermost such, is open at the end.
    Quote(usize),
}

/// The first place at which quotes do not match; none where they all do. Every open quote is kept by its place.
pub fn unmatched(table: &Table, bytes: &[u8]) -> Option<Unmatched> {
    let mut open = Vec::new();
    for (place, &byte) in bytes.iter().enumerate() {
        match table.kind(byte) {
            QUOTE => open.push(place),
            UNQUOTE if open.pop().is_none() => return Some(Unmatched::Unquote(place)),
            _ => {}
        }
    }
    open.pop().map(Unmatched::Quote)
}
