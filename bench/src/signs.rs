//! What lent signs cost: the library with the standard signs lent, and so checked, beside the library that has them.
use crate::in_process::Work;
use crate::library::Memory;
use crate::markdown::{grouped, ratio, Table};
use crate::timing::best;
use crate::workloads::{self, Workload};

/// Runs of several lengths: the checks take the same time in each.
fn workloads() -> Vec<(&'static str, Workload)> {
    vec![
        ("empty text", workloads::nothing()),
        ("1 call", workloads::calls(1)),
        ("100 calls", workloads::calls(100)),
        ("1,850 lines of plain text", workloads::plain(1_850)),
    ]
}

pub fn table(rounds: usize) -> Table {
    let workloads = workloads();
    let works: Vec<Work> = workloads.iter().map(|(_, workload)| Work::of(workload)).collect();
    let contenders = works
        .iter()
        .flat_map(|work| [work.library(Memory::expand), work.library(Memory::expand_signs)])
        .collect();
    let times = best(rounds, contenders);
    let mut table = Table::new(&[
        "work",
        "scans",
        "gpm_expand, ns a run",
        "gpm_expand_signs, ns a run",
        "gpm_expand_signs / gpm_expand",
    ]);
    for (((name, _), work), times) in workloads.iter().zip(&works).zip(times.chunks(2)) {
        let nanoseconds = |seconds: f64| grouped((seconds * 1e9) as u64);
        table.row(vec![
            name.to_string(),
            grouped(work.report().scans),
            nanoseconds(times[0]),
            nanoseconds(times[1]),
            ratio(times[1], times[0]),
        ]);
    }
    table
}
