//! What it costs to note where each byte came from: the library with both runs of numbers lent, beside the library without.
use crate::in_process::Work;
use crate::library::Memory;
use crate::markdown::{grouped, ratio, Table};
use crate::timing::best;
use crate::workloads::Workload;

pub fn table(workloads: &[Workload], rounds: usize) -> Table {
    let works: Vec<Work> = workloads.iter().map(Work::of).collect();
    let contenders = works
        .iter()
        .flat_map(|work| [work.library(Memory::expand_signs), work.library(Memory::expand_origins)])
        .collect();
    let times = best(rounds, contenders);
    let mut table = Table::new(&[
        "work",
        "scans",
        "bytes written",
        "gpm_expand_signs, ns a scan",
        "gpm_expand_origins, ns a scan",
        "gpm_expand_origins / gpm_expand_signs",
    ]);
    for ((workload, work), times) in workloads.iter().zip(&works).zip(times.chunks(2)) {
        let report = work.report();
        let per_scan = |seconds: f64| format!("{:.1}", seconds * 1e9 / report.scans as f64);
        table.row(vec![
            workload.name.to_string(),
            grouped(report.scans),
            grouped(report.written),
            per_scan(times[0]),
            per_scan(times[1]),
            ratio(times[1], times[0]),
        ]);
    }
    table
}
