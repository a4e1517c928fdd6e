//! How time grows: the work doubles four times.
use crate::in_process;
use crate::markdown::{grouped, milliseconds, ratio, Table, ABSENT};
use crate::processes::{self, Programs};
use crate::workloads::{self, Workload};

/// One kind of work at any size.
struct Kind {
    name: &'static str,
    smallest: usize,
    of: fn(usize) -> Workload,
}

impl Kind {
    fn sizes(&self) -> impl Iterator<Item = usize> {
        let smallest = self.smallest;
        (0..SIZES).map(move |doubled| smallest << doubled)
    }

    fn workloads(&self) -> Vec<Workload> {
        let named = |size| Workload {
            name: format!("{} {size}", self.name),
            ..(self.of)(size)
        };
        self.sizes().map(named).collect()
    }
}

const KINDS: [Kind; 3] = [
    Kind {
        name: "calls of a small macro",
        smallest: 450,
        of: workloads::calls,
    },
    Kind {
        name: "definitions and as many calls of the oldest",
        smallest: 64,
        of: |size| workloads::oldest(size, size),
    },
    Kind {
        name: "depth of nesting",
        smallest: 100,
        of: |size| workloads::nesting(size, 1),
    },
];

const SIZES: usize = 5;

/// The best seconds at one size. m4 is a whole process, so its start is taken off.
struct Times {
    library: f64,
    reference: f64,
    m4: Option<f64>,
}

pub fn tables(programs: &Programs, rounds: usize) -> String {
    let times = measured(programs, rounds);
    let kinds = KINDS.iter().zip(times.chunks(SIZES));
    kinds
        .map(|(kind, times)| table(kind, times))
        .collect::<Vec<String>>()
        .join("\n")
}

/// All sizes of the first kind, then of the next.
fn measured(programs: &Programs, rounds: usize) -> Vec<Times> {
    let workloads: Vec<Workload> = KINDS.iter().flat_map(Kind::workloads).collect();
    let in_process = in_process::compare(&workloads, rounds);
    let (start, processes) = programs.compare(&workloads, rounds);
    let times = |(pair, processes): (in_process::Pair, processes::Pair)| Times {
        library: pair.library,
        reference: pair.reference,
        m4: processes.without(start).m4,
    };
    in_process.into_iter().zip(processes).map(times).collect()
}

fn table(kind: &Kind, times: &[Times]) -> String {
    let mut table = Table::new(&[
        "size",
        "library, ms",
        "factor",
        "reference, ms",
        "factor",
        "m4 without start, ms",
        "factor",
    ]);
    for (at, size) in kind.sizes().enumerate() {
        let before = at.checked_sub(1).map(|before| &times[before]);
        table.row(row(size, &times[at], before));
    }
    format!("Size: {}.\n\n{table}", kind.name)
}

fn row(size: usize, now: &Times, before: Option<&Times>) -> Vec<String> {
    let mut cells = vec![grouped(size as u64)];
    let series: [fn(&Times) -> Option<f64>; 3] = [|at| Some(at.library), |at| Some(at.reference), |at| at.m4];
    for of in series {
        let seconds = of(now);
        let factor = seconds.zip(before.and_then(of)).map(|(now, before)| ratio(now, before));
        cells.push(seconds.map_or(ABSENT.to_string(), milliseconds));
        cells.push(factor.unwrap_or_default());
    }
    cells
}
