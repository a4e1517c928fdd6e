//! The same work with more and more definitions standing: they double four times.
use crate::added::{Added, Costs};
use crate::markdown::{grouped, ratio, tenths, Table};
use std::path::Path;

const STANDING: [usize; 5] = [64, 128, 256, 512, 1_024];

/// One kind of work, over so many definitions.
pub struct Kind {
    pub name: &'static str,
    pub over: fn(usize) -> Added,
}

pub fn tables(kinds: &[Kind], root: &Path, rounds: usize) -> String {
    let all: Vec<Added> = kinds.iter().flat_map(|kind| STANDING.map(kind.over)).collect();
    Costs::of(&all, root, rounds).tables(|costs| table(kinds, costs))
}

/// A column for each kind, and beside it how many times as much as in the first row.
fn table(kinds: &[Kind], costs: &[f64]) -> Table {
    let mut header = vec!["definitions standing"];
    header.extend(kinds.iter().flat_map(|kind| [kind.name, "of the first"]));
    let mut table = Table::new(&header);
    for (at, &definitions) in STANDING.iter().enumerate() {
        let of_kind = |costs: &[f64]| [tenths(costs[at]), ratio(costs[at], costs[0])];
        let mut row = vec![grouped(definitions as u64)];
        row.extend(costs.chunks(STANDING.len()).flat_map(of_kind));
        table.row(row);
    }
    table
}
