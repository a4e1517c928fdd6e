//! Compares the library with the reference, case by case: scripts, and keys that a script is wanted for.
//!
//!     compare [--bare] SEED COUNT     cases 0 to COUNT - 1 of a seed; bare lends memory without guards
//!     compare --one SEED NUMBER       one case, shown
mod asking;
mod brim;
mod built_ins;
mod bulk_words;
mod calls;
mod charging;
mod check;
mod definitions;
mod dividing;
mod examine;
mod faults;
mod fetching;
mod finding;
mod found;
mod generate;
mod giving;
mod groups;
mod grower;
mod keying;
mod keys;
mod lending;
mod letters;
mod library;
mod locked;
mod locking;
mod m6_words;
mod memory;
mod menu_wheels;
mod nameless;
mod naming;
mod noise;
mod numbers;
mod origins;
mod own_signs;
mod random;
mod recording;
mod recursion;
mod reduce;
mod reduce_keys;
mod refused_signs;
mod script;
mod shorten;
mod signing;
mod soak;
mod tally;
mod tell;
mod tracing;
mod writing;

use check::Run;
use found::Found;
use keys::Keys;
use memory::Memory;
use random::Random;
use script::Script;
use std::panic::{self, AssertUnwindSafe};
use std::process::ExitCode;
use std::time::Instant;
use tally::Tally;

/// Substitution recurses as deep as calls nest.
const STACK: usize = 1 << 30;

/// One case in so many is one of keys.
const KEYS: usize = 8;

/// A script and its runs, or keys that a script is wanted for.
enum Case {
    Script(Script, Vec<Run>),
    Keys(Keys),
}

/// The case of a seed and a number.
fn drawn(seed: u64, number: u64) -> Case {
    let mut random = Random::new(seed, number);
    if random.one_in(KEYS) {
        return Case::Keys(keys::keys(&mut random));
    }
    let script = generate::script(&mut random);
    let runs = examine::runs(&script, &mut random);
    Case::Script(script, runs)
}

fn examined(memory: &mut Memory, case: Case, tally: &mut Tally) -> Result<(), Found> {
    match case {
        Case::Script(script, runs) => {
            examine::examine(memory, &script, runs, tally).map_err(|difference| Found::Run(script, difference))
        }
        Case::Keys(keys) => recording::examine(memory, keys, tally),
    }
}

/// Whether one case shows no difference. A definition that breaks down is told as a difference is.
fn passes(memory: &mut Memory, seed: u64, number: u64, tally: &mut Tally) -> bool {
    let case = AssertUnwindSafe(|| examined(memory, drawn(seed, number), tally));
    match panic::catch_unwind(case) {
        Ok(Ok(())) => return true,
        Ok(Err(found)) => {
            println!("seed {seed}, case {number}:");
            found.tell();
            println!("reduced:");
            found.reduced(memory).tell();
        }
        Err(_) => println!("seed {seed}, case {number}: the comparison broke down"),
    }
    false
}

/// All cases of a seed up to a count, to the first difference.
fn compare(memory: &mut Memory, seed: u64, count: u64) -> bool {
    let start = Instant::now();
    let mut tally = Tally::new();
    for number in 0..count {
        if !passes(memory, seed, number, &mut tally) {
            println!("{number} passed, 1 failed");
            return false;
        }
    }
    tally.print(count);
    let time = start.elapsed().as_micros() as f64 / count.max(1) as f64;
    println!("{time:.1} microseconds a case");
    let (enough, too_few) = tally.often_enough(count);
    println!("{} passed, {too_few} failed", count + enough);
    too_few == 0
}

fn show(case: &Case) {
    match case {
        Case::Script(script, runs) => {
            tell::script(script);
            for run in runs {
                tell::lent(&run.lent);
                tell::end("scanning", &run.scanned, script.asks());
            }
        }
        Case::Keys(keys) => tell::keys(keys),
    }
}

/// One case, with all that its runs are lent.
fn one(memory: &mut Memory, seed: u64, number: u64) -> bool {
    show(&drawn(seed, number));
    let passed = passes(memory, seed, number, &mut Tally::new());
    println!("{} passed, {} failed", u8::from(passed), u8::from(!passed));
    passed
}

fn command(words: &[String]) -> Option<bool> {
    let words: Vec<&str> = words.iter().map(String::as_str).collect();
    let number = |word: &str| word.parse::<u64>().ok();
    match words[..] {
        ["--one", seed, case] => Some(one(&mut Memory::new(false), number(seed)?, number(case)?)),
        ["--bare", seed, count] => Some(compare(&mut Memory::new(true), number(seed)?, number(count)?)),
        [seed, count] => Some(compare(&mut Memory::new(false), number(seed)?, number(count)?)),
        _ => None,
    }
}

fn main() -> ExitCode {
    let words: Vec<String> = std::env::args().skip(1).collect();
    let worker = std::thread::Builder::new()
        .stack_size(STACK)
        .spawn(move || command(&words));
    match worker.expect("a thread").join() {
        Ok(Some(true)) => ExitCode::SUCCESS,
        Ok(None) => {
            eprintln!("usage: compare [--bare] SEED COUNT, or compare --one SEED NUMBER");
            ExitCode::from(2)
        }
        _ => ExitCode::FAILURE,
    }
}
