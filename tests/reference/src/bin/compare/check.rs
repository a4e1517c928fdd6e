//! One check: the library's run of a script against both definitions.
use crate::charging::{self, Course};
use crate::dividing;
use crate::fetching;
use crate::finding::{self, Finds};
use crate::giving;
use crate::lending;
use crate::library;
use crate::locking::{self, Locks};
use crate::memory::Memory;
use crate::naming::{self, Names};
use crate::origins;
use crate::script::Script;
use crate::tracing::{self, Scans};
use reference::ends::{End, Report, Sort};
use reference::scanning::{self, Lent};
use reference::substitution::{substitute, Bounds};

/// What a script's run is lent, and how it ends by scanning, with the ways that `~`, the words from M6, empty names,
/// divisions, origins, locks and lookups went and the course of the charge.
pub struct Run {
    pub lent: Lent,
    pub scanned: End,
    pub course: Course,
    pub locks: Locks,
    fetching: fetching::Ways,
    giving: giving::Ways,
    names: Names,
    dividing: dividing::Ways,
    tracing: tracing::Ways,
    finds: Finds,
}

/// The ways that a run came to, which are counted.
pub struct Told {
    pub fetching: fetching::Ways,
    pub charging: charging::Ways,
    pub giving: giving::Ways,
    pub naming: naming::Ways,
    pub dividing: dividing::Ways,
    pub tracing: tracing::Ways,
    pub locking: locking::Ways,
    pub finding: finding::Ways,
}

impl Run {
    pub fn new(script: &Script, lent: Lent) -> Run {
        let (mut fetching, mut giving) = (fetching::Ways::default(), giving::Ways::default());
        let (mut course, mut names) = (Course::default(), Names::default());
        let (mut dividing, mut scans) = (dividing::Ways::default(), Scans::default());
        let (mut locks, mut finds) = (Locks::default(), Finds::default());
        let scanned = scanning::run_traced(script.checked(), &script.text, &lent, &mut |row| {
            if let Some(way) = fetching::way(row) {
                fetching[way] = true;
            }
            if let Some(way) = giving::way(row, lent.cells) {
                giving[way] = true;
            }
            dividing::follow(&mut dividing, row, lent.cells);
            course.follow(row);
            names.follow(row);
            locks.follow(script, row, lent.output);
            finds.follow(script, row);
            if script.asks() {
                scans.follow(script, row);
            }
        });
        let tracing = tracing::ways(&lent, &scanned, &scans);
        Run {
            lent,
            scanned,
            course,
            locks,
            fetching,
            giving,
            names,
            dividing,
            tracing,
            finds,
        }
    }

    /// The ways, of a script whose charge comes so high with plenty lent.
    pub fn told(&self, with_plenty: u64) -> Told {
        Told {
            fetching: self.fetching,
            charging: self.course.ways(&self.scanned.report, with_plenty),
            giving: self.giving,
            naming: self.names.ways(),
            dividing: self.dividing,
            tracing: self.tracing,
            locking: self.locks.ways(&self.scanned.report),
            finding: self.finds.ways(&self.lent, &self.scanned.report, with_plenty),
        }
    }
}

/// The end by substitution, none if it has none within the bounds; or the outcome that refuses the signs.
pub type Substituted = Result<Option<End>, u64>;

pub fn substituted(script: &Script, bounds: &Bounds) -> Substituted {
    match script.checked() {
        Ok(table) => Ok(substitute(&script.text, table, bounds)),
        Err(outcome) => Err(*outcome),
    }
}

/// The first thing that differed, and all that was come to.
pub struct Difference {
    pub what: String,
    pub run: Run,
    pub report: Report,
    pub output: Vec<u8>,
    /// The first places of the runs of numbers, if lent: origins and rules.
    pub numbers: [Vec<u32>; 2],
    pub substituted: Substituted,
}

/// The library's run must be that of scanning, leave the memory as document 01 says, and meet demand 3.
pub fn check(
    memory: &mut Memory,
    script: &Script,
    run: Run,
    substituted: &Substituted,
) -> Result<Report, Box<Difference>> {
    memory.lend(script, &run.lent);
    let report = match run.lent.numbers {
        Some(_) => library::expand_origins(memory, run.lent.allowance),
        None => library::expand(memory, script.signs().is_some(), run.lent.allowance),
    };
    let checked = against_scanning(memory, &report, &run)
        .and_then(|()| left(memory, script, &report))
        .and_then(|()| origins::left(memory, &run.lent, report.written as usize))
        .and_then(|()| against_substitution(memory, script, &report, &run, substituted));
    checked.map(|()| report).map_err(|what| {
        let written = memory.output.lent().len().min(report.written as usize);
        let output = memory.output.lent()[..written].to_vec();
        let numbers = origins::first(memory, &run.lent, written);
        let substituted = substituted.clone();
        Box::new(Difference {
            what,
            run,
            report,
            output,
            numbers,
            substituted,
        })
    })
}

pub fn hold(holds: bool, what: &str) -> Result<(), String> {
    holds.then_some(()).ok_or_else(|| what.to_string())
}

fn wrote(memory: &Memory, end: &End) -> bool {
    memory.output.lent().get(..end.output.len()) == Some(&end.output)
}

fn against_scanning(memory: &Memory, report: &Report, run: &Run) -> Result<(), String> {
    let scanned = &run.scanned;
    hold(*report == scanned.report, "the report is not that of scanning")?;
    hold(wrote(memory, scanned), "the output is not that of scanning")?;
    origins::against(memory, &run.lent, scanned, "scanning")
}

/// What the memory holds after the run.
fn left(memory: &Memory, script: &Script, report: &Report) -> Result<(), String> {
    hold(memory.signs.guards_kept(), "memory beside the signs is changed")?;
    hold(memory.text.guards_kept(), "memory beside the text is changed")?;
    hold(memory.cells.guards_kept(), "memory beside the cells is changed")?;
    hold(memory.output.guards_kept(), "memory beside the output is changed")?;
    let signs = script.signs().unwrap_or_default();
    hold(memory.signs.lent() == signs, "the signs are changed")?;
    hold(memory.text.lent() == script.text, "the text is changed")?;
    let written = report.written as usize;
    hold(
        memory.output.kept_from(written),
        "the output is changed past the bytes written",
    )?;
    if report.is(Sort::Refusal) {
        return hold(
            memory.cells.kept_from(0),
            "cells are changed, though the call is refused",
        );
    }
    zero(memory.cells.lent())
}

/// All cells at once first, which is fast.
fn zero(cells: &[u32]) -> Result<(), String> {
    if cells.iter().fold(0, |all, cell| all | cell) == 0 {
        return Ok(());
    }
    let place = cells.iter().position(|&cell| cell != 0).unwrap_or_default();
    Err(format!("cell {place} is {}, not zero", cells[place]))
}

/// Demand 3: the end of substitution, which is a finish or a fault of the text, wherever what is lent suffices for it,
/// and else 3, 4 or 5. A refused call has no end by substitution.
fn against_substitution(
    memory: &Memory,
    script: &Script,
    report: &Report,
    run: &Run,
    substituted: &Substituted,
) -> Result<(), String> {
    if lending::too_long(&script.text, &run.lent) {
        return hold(report.outcome == 2, "the outcome is not 2");
    }
    match substituted {
        Err(outcome) => hold(report.outcome == *outcome, "the signs are refused otherwise"),
        Ok(_) if lending::numbers_too_short(&run.lent) => hold(report.outcome == 35, "the outcome is not 35"),
        Ok(Some(end)) if lending::suffices(&run.lent, &end.report) => {
            hold(*report == end.report, "the report is not that of substitution")?;
            hold(wrote(memory, end), "the output is not that of substitution")?;
            origins::against(memory, &run.lent, end, "substitution")?;
            let own = end.report.is(Sort::Finish) || end.report.is(Sort::Fault);
            hold(own, "substitution has no such outcome")?;
            let same = run.scanned.standing == end.standing;
            hold(
                same,
                "the definitions standing, by scanning, are not those of substitution",
            )
        }
        Ok(_) => hold(
            report.is(Sort::Want),
            "substitution has no such end within what was lent",
        ),
    }
}
