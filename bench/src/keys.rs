//! What a script for given keys costs: the library's call and the reference's, on keys of several lengths.
use crate::library::Memory;
use crate::markdown::{grouped, ratio, Table};
use crate::timing::{best, mean, timed, Contender};
use reference::keys;
use reference::scanning::Lent;
use reference::signs::{Checked, Table as Signs};

/// Keys without quotes and keys of quotes alone, all of which have a script.
fn recordings() -> Vec<(&'static str, Vec<u8>)> {
    let plain = |count: usize| b"[MENU]5,OK;".iter().copied().cycle().take(count).collect();
    let half = keys::LONGEST_WANTED / 2;
    vec![
        ("no keys", Vec::new()),
        ("100 keys", plain(100)),
        ("10,000 keys", plain(10_000)),
        ("65,534 keys", plain(keys::LONGEST_WANTED)),
        ("65,534 keys, all quotes", [vec![b'<'; half], vec![b'>'; half]].concat()),
    ]
}

/// The library's call, whose script is compared outside of the time.
fn library(wanted: &[u8]) -> Contender<'_> {
    let script = scripted(wanted);
    let mut memory = Memory::new();
    Box::new(move || {
        mean(|| {
            memory.wipe();
            let (answer, time) = timed(|| memory.script(wanted));
            assert_eq!(memory.scripted(answer), script, "the library's script");
            time
        })
    })
}

/// The same of the reference.
fn reference(wanted: &[u8]) -> Contender<'_> {
    Box::new(move || mean(|| timed(|| scripted(wanted)).1))
}

fn scripted(wanted: &[u8]) -> Vec<u8> {
    let signs: Checked = Ok(Signs::STANDARD);
    keys::script_for(&signs, wanted, Lent::PROGRAM.output).expect("keys that have a script")
}

pub fn table(rounds: usize) -> Table {
    let recordings = recordings();
    let contenders = recordings
        .iter()
        .flat_map(|(_, wanted)| [library(wanted), reference(wanted)])
        .collect();
    let times = best(rounds, contenders);
    let mut table = Table::new(&[
        "keys",
        "library, ns a call",
        "reference, ns a call",
        "library / reference",
    ]);
    for ((name, _), times) in recordings.iter().zip(times.chunks(2)) {
        let nanoseconds = |seconds: f64| grouped((seconds * 1e9) as u64);
        table.row(vec![
            name.to_string(),
            nanoseconds(times[0]),
            nanoseconds(times[1]),
            ratio(times[0], times[1]),
        ]);
    }
    table
}
