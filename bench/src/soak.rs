//! A long soak on top of what is charged already: the same calls and collected bytes each time, so that the time of a scan
//! shows whether the charge is added up anew. The same script without its soak is timed too and taken off.
use crate::in_process::{self, Pair};
use crate::markdown::{grouped, ratio, Table};
use crate::workloads::Workload;

/// How often the macro of the soak is called: each time its ten calls collect ten bytes, which then go.
const TIMES: usize = 650;

/// An open call with a name of one byte.
const OPEN_CALL: usize = 5;

/// A definition's cells beside its value, where its name has one byte.
const DEFINITION: usize = 6;

/// What stands before the soak, and how many cells it is charged.
struct Ground {
    name: String,
    cells: usize,
    calls: usize,
    value: Option<usize>,
}

impl Ground {
    fn nothing() -> Ground {
        Ground {
            name: "nothing".to_string(),
            cells: 0,
            calls: 0,
            value: None,
        }
    }

    fn open_calls(cells: usize) -> Ground {
        let calls = cells / OPEN_CALL;
        Ground {
            name: format!("{} open calls", grouped(calls as u64)),
            cells,
            calls,
            value: None,
        }
    }

    fn definition(cells: usize) -> Ground {
        let bytes = cells - DEFINITION;
        Ground {
            name: format!("a definition of {} bytes", grouped(bytes as u64)),
            cells,
            calls: 0,
            value: Some(bytes),
        }
    }

    /// The script with so many calls of the soak. The long definition is the oldest, so no search passes it; all calls end.
    fn script(&self, times: usize) -> Workload {
        let long = self.value.map(|bytes| format!("$DEF,l,<{}>;", "x".repeat(bytes)));
        let macros = format!("$DEF,e,<>;$DEF,s,<{}>;", "$e,0123456789;".repeat(10));
        let soak = format!(
            "{}{}{}",
            "$e".repeat(self.calls),
            "$s;".repeat(times),
            ";".repeat(self.calls)
        );
        Workload {
            name: format!("soak over {}", self.name),
            gpm: long.unwrap_or_default() + &macros + &soak,
            m4: String::new(),
            output: String::new(),
        }
    }
}

fn grounds() -> Vec<Ground> {
    vec![
        Ground::nothing(),
        Ground::open_calls(1_000),
        Ground::open_calls(10_000),
        Ground::definition(1_000),
        Ground::definition(10_000),
    ]
}

/// Scans of the soak alone, and the seconds that each of them took.
struct Soaked {
    scans: u64,
    library: f64,
    reference: f64,
}

impl Soaked {
    fn of(without: &Pair, with: &Pair) -> Soaked {
        let scans = with.report.scans - without.report.scans;
        let each = |with: f64, without: f64| (with - without) / scans as f64;
        Soaked {
            scans,
            library: each(with.library, without.library),
            reference: each(with.reference, without.reference),
        }
    }
}

pub fn table(rounds: usize) -> Table {
    let grounds = grounds();
    let scripts: Vec<Workload> = grounds
        .iter()
        .flat_map(|ground| [ground.script(0), ground.script(TIMES)])
        .collect();
    let pairs = in_process::compare(&scripts, rounds);
    let soaked: Vec<Soaked> = pairs.chunks(2).map(|pair| Soaked::of(&pair[0], &pair[1])).collect();
    let mut table = Table::new(&[
        "charged before the soak",
        "cells",
        "scans of the soak",
        "library, ns a scan",
        "of the first",
        "reference, ns a scan",
        "of the first",
    ]);
    for (at, ground) in grounds.iter().enumerate() {
        check(ground, &pairs[1], &pairs[2 * at + 1]);
        table.row(row(ground, &soaked[at], &soaked[0]));
    }
    table
}

/// What stands before the soak is charged as many cells as the table says: the highest charge is higher by them.
fn check(ground: &Ground, nothing: &Pair, with: &Pair) {
    assert_eq!(
        with.report.most,
        nothing.report.most + ground.cells as u64,
        "soak over {}: other cells are charged",
        ground.name
    );
}

fn row(ground: &Ground, now: &Soaked, first: &Soaked) -> Vec<String> {
    let nanoseconds = |seconds: f64| format!("{:.2}", seconds * 1e9);
    vec![
        ground.name.clone(),
        grouped(ground.cells as u64),
        grouped(now.scans),
        nanoseconds(now.library),
        ratio(now.library, first.library),
        nanoseconds(now.reference),
        ratio(now.reference, first.reference),
    ]
}
