//! Where the library's time goes, by the instructions of its functions.
use crate::callgrind;
use crate::library::Memory;
use crate::markdown::{grouped, Table};
use crate::workloads::Workload;
use std::path::Path;

/// Instructions of one run, the functions' own ones.
#[derive(Default)]
struct Counts {
    all: u64,
    scanning: u64,
    finding: u64,
}

impl Counts {
    /// From a listing by function, whose lines begin with a count.
    fn of(listing: &str) -> Counts {
        let mut counts = Counts::default();
        for line in listing.lines() {
            let digits: String = line.trim_start().chars().take_while(|&sign| sign != ' ').collect();
            let count = digits.replace(',', "").parse().unwrap_or(0);
            if line.contains("PROGRAM TOTALS") {
                counts.all = count;
            } else if line.contains(":expander::expand_accepted ") {
                counts.scanning = count;
            } else if line.contains("lookup::newest ") {
                counts.finding = count;
            }
        }
        counts
    }
}

pub fn table(root: &Path, workloads: &[Workload]) -> String {
    let mut table = Table::new(&["work", "instructions", "a scan", "scanning", "finding names", "other"]);
    for workload in workloads {
        let Some(listing) = callgrind::listing(root, workload) else {
            return callgrind::ABSENT.to_string();
        };
        let counts = Counts::of(&listing);
        let report = Memory::new().expand(workload.gpm.as_bytes());
        let share = |part: u64| format!("{:.0} %", 100.0 * part as f64 / counts.all as f64);
        table.row(vec![
            workload.name.to_string(),
            grouped(counts.all),
            format!("{:.1}", counts.all as f64 / report.scans as f64),
            share(counts.scanning),
            share(counts.finding),
            share(counts.all - counts.scanning - counts.finding),
        ]);
    }
    table.to_string()
}
