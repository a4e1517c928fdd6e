//! Library and reference in one process, each run checked.
use crate::library::Memory;
use crate::markdown::{grouped, ratio, Table};
use crate::timing::{best, mean, shortest, timed, Contender};
use crate::workloads::Workload;
use reference::ends::{End, Report};
use reference::scanning::{self, Lent};
use std::time::Duration;

/// What a workload reports, and the best seconds of a run.
pub struct Pair {
    pub report: Report,
    pub library: f64,
    pub reference: f64,
}

/// One of the library's calls, on a text.
pub type Call = fn(&mut Memory, &[u8]) -> Report;

/// A workload, and the end that every run of it must come to.
pub struct Work<'a> {
    workload: &'a Workload,
    expected: End,
}

impl<'a> Work<'a> {
    pub fn of(workload: &'a Workload) -> Work<'a> {
        let expected = reference_end(workload);
        let name = &workload.name;
        assert_eq!(expected.report.outcome, 0, "{name}: the reference refuses it");
        assert!(
            expected.output == workload.output.as_bytes(),
            "{name}: the reference wrote something else"
        );
        Work { workload, expected }
    }

    pub fn report(&self) -> Report {
        self.expected.report
    }

    pub fn library(&self, call: Call) -> Contender<'_> {
        let mut memory = Memory::new();
        Box::new(move || mean(|| self.library_run(&mut memory, call)))
    }

    pub fn library_shortest(&self, call: Call) -> Contender<'_> {
        let mut memory = Memory::new();
        Box::new(move || shortest(|| self.library_run(&mut memory, call)))
    }

    fn reference(&self) -> Contender<'_> {
        Box::new(|| mean(|| self.reference_run()))
    }

    fn library_run(&self, memory: &mut Memory, call: Call) -> Duration {
        memory.wipe();
        let (report, time) = timed(|| call(memory, self.workload.gpm.as_bytes()));
        self.check("library", &report, memory.written(&report));
        time
    }

    fn reference_run(&self) -> Duration {
        let (end, time) = timed(|| reference_end(self.workload));
        self.check("reference", &end.report, &end.output);
        time
    }

    fn check(&self, who: &str, report: &Report, output: &[u8]) {
        let name = &self.workload.name;
        assert_eq!(
            *report, self.expected.report,
            "{name}: the {who} reports something else"
        );
        assert!(output == self.expected.output, "{name}: the {who} wrote something else");
    }
}

fn reference_end(workload: &Workload) -> End {
    scanning::run(workload.gpm.as_bytes(), &Lent::PROGRAM)
}

pub fn compare(workloads: &[Workload], rounds: usize) -> Vec<Pair> {
    let works: Vec<Work> = workloads.iter().map(Work::of).collect();
    let contenders = works
        .iter()
        .flat_map(|work| [work.library(Memory::expand), work.reference()])
        .collect();
    let times = best(rounds, contenders);
    let pair = |(work, times): (&Work, &[f64])| Pair {
        report: work.report(),
        library: times[0],
        reference: times[1],
    };
    works.iter().zip(times.chunks(2)).map(pair).collect()
}

pub fn table(workloads: &[Workload], rounds: usize) -> Table {
    let mut table = Table::new(&[
        "work",
        "scans",
        "library, ns a scan",
        "reference, ns a scan",
        "library, MB/s",
        "reference, MB/s",
        "library / reference",
    ]);
    for (workload, pair) in workloads.iter().zip(compare(workloads, rounds)) {
        let per_scan = |seconds: f64| format!("{:.1}", seconds * 1e9 / pair.report.scans as f64);
        let pace = |seconds: f64| format!("{:.2}", pair.report.read as f64 / seconds / 1e6);
        table.row(vec![
            workload.name.to_string(),
            grouped(pair.report.scans),
            per_scan(pair.library),
            per_scan(pair.reference),
            pace(pair.library),
            pace(pair.reference),
            ratio(pair.library, pair.reference),
        ]);
    }
    table
}
