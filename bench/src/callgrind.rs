//! Instructions of the library as valgrind's callgrind counts them, which no other work on the machine changes: this
//! program is run once more, under valgrind, and counted from the library's entry to its return.
use crate::library::Memory;
use crate::workloads::Workload;
use std::env;
use std::fs;
use std::path::{Path, PathBuf};
use std::process::{Command, Output, Stdio};
use std::slice;

/// What stands in place of counts where there are none.
pub const ABSENT: &str = "valgrind could not be run.\n";

/// The run that is counted: the library alone, on one script after the other.
pub fn once(scripts: &[PathBuf]) -> Result<(), String> {
    let mut memory = Memory::new();
    for script in scripts {
        let text = fs::read(script).map_err(|error| format!("{}: {error}", script.display()))?;
        memory.expand(&text);
    }
    Ok(())
}

/// The instructions of one workload, listed by function.
pub fn listing(root: &Path, workload: &Workload) -> Option<String> {
    let counts = counted(root, &[], slice::from_ref(workload))?;
    let listing = answered(Command::new("callgrind_annotate").arg("--threshold=100").arg(counts))?;
    Some(String::from_utf8_lossy(&listing.stdout).into_owned())
}

/// The instructions of each workload: callgrind writes a file for each return of the library.
pub fn totals(root: &Path, workloads: &[Workload]) -> Option<Vec<u64>> {
    let counts = counted(root, &["--dump-after=gpm_expand"], workloads)?;
    let of_part = |part: usize| total(&fs::read_to_string(format!("{}.{part}", counts.display())).ok()?);
    (1..=workloads.len()).map(of_part).collect()
}

fn total(counts: &str) -> Option<u64> {
    let totals = counts.lines().find_map(|line| line.strip_prefix("totals: "));
    totals?.parse().ok()
}

/// Where the counts were written.
fn counted(root: &Path, options: &[&str], workloads: &[Workload]) -> Option<PathBuf> {
    let folder = root.join("target/bench/files");
    let counts = folder.join("callgrind.out");
    let mut run = Command::new("valgrind");
    run.args(["--tool=callgrind", "--toggle-collect=gpm_expand"])
        .args(options);
    run.arg(format!("--callgrind-out-file={}", counts.display()));
    run.arg(env::current_exe().ok()?).arg(root);
    for (at, workload) in workloads.iter().enumerate() {
        let script = folder.join(format!("counted-{at}.gpm"));
        fs::write(&script, &workload.gpm).ok()?;
        run.arg("--once").arg(script);
    }
    answered(&mut run)?;
    Some(counts)
}

fn answered(command: &mut Command) -> Option<Output> {
    command
        .stderr(Stdio::null())
        .output()
        .ok()
        .filter(|output| output.status.success())
}
