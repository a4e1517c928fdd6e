//! Compares the library with a plain reference, and the program `gpm` with GNU m4, and prints the tables of
//! docs/PERFORMANCE.md. Nothing here asserts a time.
mod added;
mod callgrind;
mod document;
mod ends;
mod growth;
mod in_process;
mod index;
mod keys;
mod library;
mod machine;
mod markdown;
mod names;
mod origins;
mod processes;
mod profile;
mod signs;
mod soak;
mod standing;
mod timing;
mod workloads;

use processes::Programs;
use std::env;
use std::path::PathBuf;
use std::process::ExitCode;

const ROUNDS: usize = 60;

/// What the command line asks for. `once` is for a profiler: the library alone, on these scripts.
struct Request {
    root: PathBuf,
    rounds: usize,
    write: bool,
    once: Vec<PathBuf>,
}

impl Request {
    fn of(mut words: impl Iterator<Item = String>) -> Option<Request> {
        let root = words.next()?.into();
        let mut request = Request {
            root,
            rounds: ROUNDS,
            write: false,
            once: Vec::new(),
        };
        while let Some(word) = words.next() {
            match word.as_str() {
                "--write" => request.write = true,
                "--once" => request.once.push(words.next()?.into()),
                _ => request.rounds = word.parse().ok().filter(|rounds| *rounds > 0)?,
            }
        }
        Some(request)
    }
}

fn main() -> ExitCode {
    let Some(request) = Request::of(env::args().skip(1)) else {
        eprintln!("usage: bench/run [--write] [--once SCRIPT] [ROUNDS]");
        return ExitCode::from(2);
    };
    match answer(&request) {
        Ok(()) => ExitCode::SUCCESS,
        Err(fault) => {
            eprintln!("bench/run: {fault}");
            ExitCode::FAILURE
        }
    }
}

fn answer(request: &Request) -> Result<(), String> {
    if !request.once.is_empty() {
        return callgrind::once(&request.once);
    }
    let tables = measured(request);
    print!("{tables}");
    if request.write {
        document::write(&request.root.join("docs/PERFORMANCE.md"), &tables)?;
    }
    Ok(())
}

fn measured(request: &Request) -> String {
    let Request { root, rounds, .. } = request;
    let programs = Programs::of(root);
    let workloads = workloads::all();
    let machine = machine::described(programs.m4.as_deref());
    let in_process = in_process::table(&workloads, *rounds);
    let signs = signs::table(*rounds);
    let origins = origins::table(&workloads, *rounds);
    let keys = keys::table(*rounds);
    let soak = soak::table(*rounds);
    let processes = processes::table(&programs, &workloads, *rounds);
    let growth = growth::tables(&programs, *rounds);
    let index = index::tables(root, *rounds);
    let ends = ends::tables(root, *rounds);
    let profile = profile::table(root, &workloads);
    format!(
        "Best of {rounds} rounds.\n\n{machine}\n\
         ### In process: the library and the reference\n\n{in_process}\n\
         ### Lent signs: gpm_expand_signs and gpm_expand\n\n{signs}\n\
         ### Origins: gpm_expand_origins and gpm_expand_signs\n\n{origins}\n\
         ### A script for given keys: gpm_script and the reference\n\n{keys}\n\
         ### Soak: the same calls with more and more charged\n\n{soak}\n\
         ### Whole processes: gpm and m4\n\n{processes}\n\
         ### Growth\n\n{growth}\n\
         ### Finding names: calls with more and more definitions standing\n\n{index}\n\
         ### The end of a call: what stands, what goes and what moves\n\n{ends}\n\
         ### Instructions of the library\n\n{profile}"
    )
}
