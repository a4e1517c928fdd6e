//! What work costs on top of a script: the script is run with the work and without, and the difference is divided by
//! how often the work is done.
use crate::callgrind;
use crate::in_process::Work;
use crate::library::Memory;
use crate::markdown::Table;
use crate::timing::best;
use crate::workloads::Workload;
use std::path::Path;

/// A script, and work behind it that is done so many times, with what it gives each time. So many definitions stand
/// before the work and behind it.
pub struct Added {
    pub script: String,
    pub work: String,
    pub output: &'static str,
    pub times: usize,
    pub standing: usize,
}

impl Added {
    fn done(&self, times: usize) -> Workload {
        Workload {
            name: format!("{times} times {} over {} definitions", self.work, self.standing),
            gpm: self.script.clone() + &self.work.repeat(times),
            m4: String::new(),
            output: self.output.repeat(times),
        }
    }

    fn check(&self, work: &Work) {
        let live = work.report().live;
        assert_eq!(live, self.standing as u64, "{}: others stand than are told", self.work);
    }

    fn each(&self, pair: &[f64]) -> f64 {
        (pair[1] - pair[0]) / self.times as f64
    }
}

/// What each of some works costs, done once: in nanoseconds, and in instructions where they can be counted.
pub struct Costs {
    nanoseconds: Vec<f64>,
    instructions: Option<Vec<f64>>,
}

impl Costs {
    pub fn of(all: &[Added], root: &Path, rounds: usize) -> Costs {
        let pair = |added: &Added| [added.done(0), added.done(added.times)];
        let workloads: Vec<Workload> = all.iter().flat_map(pair).collect();
        let each = |costs: Vec<f64>| {
            all.iter()
                .zip(costs.chunks(2))
                .map(|(added, pair)| added.each(pair))
                .collect()
        };
        Costs {
            nanoseconds: each(nanoseconds(all, &workloads, rounds)),
            instructions: instructions(root, &workloads).map(each),
        }
    }

    /// One table in each measure.
    pub fn tables(&self, table: impl Fn(&[f64]) -> Table) -> String {
        let instructions = self.instructions.as_deref().map(|costs| table(costs).to_string());
        format!(
            "Nanoseconds a call:\n\n{}\nInstructions a call:\n\n{}",
            table(&self.nanoseconds),
            instructions.unwrap_or(callgrind::ABSENT.to_string())
        )
    }
}

fn nanoseconds(all: &[Added], workloads: &[Workload], rounds: usize) -> Vec<f64> {
    let works: Vec<Work> = workloads.iter().map(Work::of).collect();
    for (added, pair) in all.iter().zip(works.chunks(2)) {
        pair.iter().for_each(|work| added.check(work));
    }
    let contenders = works.iter().map(|work| work.library_shortest(Memory::expand)).collect();
    let seconds = best(rounds, contenders);
    seconds.iter().map(|seconds| seconds * 1e9).collect()
}

fn instructions(root: &Path, workloads: &[Workload]) -> Option<Vec<f64>> {
    let counts = callgrind::totals(root, workloads)?;
    Some(counts.iter().map(|&count| count as f64).collect())
}
