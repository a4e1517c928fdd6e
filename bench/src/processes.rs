//! `gpm` and m4 as whole processes, from file to file, each output checked.
use crate::markdown::{milliseconds, ratio, Table, ABSENT};
use crate::timing::{best, timed, Contender};
use crate::workloads::{self, Workload};
use std::env;
use std::fs::{self, File};
use std::iter;
use std::path::{Path, PathBuf};
use std::process::{Command, Stdio};

/// The two programs, and the folder of their files.
pub struct Programs {
    gpm: PathBuf,
    pub m4: Option<PathBuf>,
    folder: PathBuf,
}

/// The best seconds of each from start to end; none for m4 where it is not installed.
#[derive(Clone, Copy)]
pub struct Pair {
    pub gpm: f64,
    pub m4: Option<f64>,
}

impl Pair {
    pub fn without(self, start: Pair) -> Pair {
        Pair {
            gpm: self.gpm - start.gpm,
            m4: self.m4.zip(start.m4).map(|(whole, start)| whole - start),
        }
    }
}

impl Programs {
    /// Those of a repository; m4 is looked for as a shell does.
    pub fn of(root: &Path) -> Programs {
        let folder = root.join("target/bench/files");
        fs::create_dir_all(&folder).expect("a folder for the files");
        let paths = env::var_os("PATH").unwrap_or_default();
        let m4 = env::split_paths(&paths)
            .map(|path| path.join("m4"))
            .find(|path| path.is_file());
        Programs {
            gpm: root.join("target/bin/gpm"),
            m4,
            folder,
        }
    }

    /// Both on the empty text, which is what a start takes, and on each workload.
    pub fn compare(&self, workloads: &[Workload], rounds: usize) -> (Pair, Vec<Pair>) {
        let nothing = workloads::nothing();
        let mut contenders = Vec::new();
        for workload in iter::once(&nothing).chain(workloads) {
            contenders.push(self.contender(&self.gpm, workload, "gpm", &workload.gpm));
            if let Some(m4) = &self.m4 {
                contenders.push(self.contender(m4, workload, "m4", &workload.m4));
            }
        }
        let times = best(rounds, contenders);
        let contended = 1 + usize::from(self.m4.is_some());
        let mut pairs = times.chunks(contended).map(|times| Pair {
            gpm: times[0],
            m4: times.get(1).copied(),
        });
        let start = pairs.next().expect("the empty text");
        (start, pairs.collect())
    }

    fn contender<'a>(&'a self, program: &'a Path, workload: &'a Workload, kind: &str, text: &str) -> Contender<'a> {
        let script = self.folder.join(format!("{}.{kind}", workload.name.replace(' ', "-")));
        fs::write(&script, text).expect("a script is written");
        Box::new(move || self.run(program, &script, workload))
    }

    /// The seconds of one process. Its environment is empty, so that no locale is read.
    fn run(&self, program: &Path, script: &Path, workload: &Workload) -> f64 {
        let output = self.folder.join("output");
        // A file that is cut off and written again may be flushed when it is closed; a new one is not.
        let _ = fs::remove_file(&output);
        let mut command = Command::new(program);
        command.env_clear().stderr(Stdio::null());
        command
            .stdin(File::open(script).expect("the script"))
            .stdout(File::create(&output).expect("the output"));
        let (status, time) = timed(|| command.status().expect("the program starts"));
        let written = fs::read(&output).expect("the output");
        let name = program.file_name().unwrap_or_default();
        assert!(status.success(), "{}: {name:?} failed", workload.name);
        assert!(
            written == workload.output.as_bytes(),
            "{}: {name:?} wrote something else",
            workload.name
        );
        time.as_secs_f64()
    }
}

pub fn table(programs: &Programs, workloads: &[Workload], rounds: usize) -> Table {
    let mut table = Table::new(&[
        "work",
        "gpm, ms",
        "m4, ms",
        "gpm / m4",
        "gpm without start, ms",
        "m4 without start, ms",
        "gpm / m4 without start",
    ]);
    let (start, pairs) = programs.compare(workloads, rounds);
    table.row(row("empty text", times(start), [const { String::new() }; 3]));
    for (workload, pair) in workloads.iter().zip(pairs) {
        table.row(row(&workload.name, times(pair), times(pair.without(start))));
    }
    table
}

fn row(name: &str, whole: [String; 3], without_start: [String; 3]) -> Vec<String> {
    iter::once(name.to_string()).chain(whole).chain(without_start).collect()
}

fn times(pair: Pair) -> [String; 3] {
    let m4 = pair.m4.map_or(ABSENT.to_string(), milliseconds);
    [
        milliseconds(pair.gpm),
        m4,
        pair.m4.map_or(String::new(), |m4| ratio(pair.gpm, m4)),
    ]
}
