//! The machine's kind, for whoever reads the figures.
use crate::markdown::ABSENT;
use std::fs;
use std::path::Path;
use std::process::Command;
use std::thread;

/// One line each: processor, load, compilers, m4.
pub fn described(m4: Option<&Path>) -> String {
    let cores = thread::available_parallelism().map_or(0, |count| count.get());
    let kit = first_line(Path::new("rt"), "version");
    let compiler = first_line(Path::new("rustc"), "--version");
    let m4 = m4.map_or(ABSENT.to_string(), |m4| first_line(m4, "--version"));
    format!(
        "- processor: {}, {cores} cores\n\
         - load before the run, over one minute: {}\n\
         - library and gpm: {kit}\n\
         - reference and benchmark: {compiler}, release profile\n\
         - m4: {m4}\n",
        processor(),
        load()
    )
}

fn processor() -> String {
    let facts = fs::read_to_string("/proc/cpuinfo").unwrap_or_default();
    let model = facts
        .lines()
        .find(|line| line.starts_with("model name"))
        .and_then(|line| line.split_once(": "));
    model.map_or("unknown", |(_, name)| name).to_string()
}

fn load() -> String {
    let facts = fs::read_to_string("/proc/loadavg").unwrap_or_default();
    facts.split(' ').next().unwrap_or_default().to_string()
}

fn first_line(program: &Path, question: &str) -> String {
    let answer = Command::new(program)
        .arg(question)
        .output()
        .map(|output| output.stdout)
        .unwrap_or_default();
    String::from_utf8_lossy(&answer)
        .lines()
        .next()
        .unwrap_or("unknown")
        .to_string()
}
