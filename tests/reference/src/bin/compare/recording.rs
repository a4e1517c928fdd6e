//! One call for keys: the library's script against that of the reference, and its expansion against both definitions.
use crate::check::{self, hold, substituted, Run};
use crate::found::Found;
use crate::keys::Keys;
use crate::lending;
use crate::library;
use crate::memory::Memory;
use crate::script::Script;
use crate::tally::Tally;
use reference::ends::Report;
use reference::keys::{number, script_for, Made};
use reference::scanning::Lent;
use reference::signs::Table;

/// The first thing that differed, and all that was come to.
pub struct CallDifference {
    pub what: String,
    pub number: u64,
    pub output: Vec<u8>,
    pub made: Made,
}

/// The library's call must be that of the reference and leave the memory as request Six says.
pub fn check(memory: &mut Memory, keys: &Keys) -> Result<Made, Box<CallDifference>> {
    memory.lend_keys(keys);
    let number = library::script(memory);
    let made = script_for(&Ok(Table::STANDARD), &keys.wanted, keys.output);
    match against_reference(memory, keys, number, &made) {
        Ok(()) => Ok(made),
        Err(what) => {
            let length = memory.output.lent().len().min(number as u32 as usize);
            let output = memory.output.lent()[..length].to_vec();
            Err(Box::new(CallDifference {
                what,
                number,
                output,
                made,
            }))
        }
    }
}

fn against_reference(memory: &Memory, keys: &Keys, came_back: u64, made: &Made) -> Result<(), String> {
    let script = made.as_deref().unwrap_or_default();
    hold(came_back == number(made), "the number is not that of the reference")?;
    let same = memory.output.lent().starts_with(script);
    hold(same, "the script is not that of the reference")?;
    let kept = memory.output.kept_from(script.len());
    hold(kept, "the output is changed past the script")?;
    hold(memory.text.guards_kept(), "memory beside the wanted bytes is changed")?;
    hold(memory.output.guards_kept(), "memory beside the output is changed")?;
    hold(memory.text.lent() == keys.wanted, "the wanted bytes are changed")
}

/// The call, then the runs of the script that the library wrote, and those of the reference's under other signs.
pub fn examine(memory: &mut Memory, keys: Keys, tally: &mut Tally) -> Result<(), Found> {
    let made = match check(memory, &keys) {
        Ok(made) => made,
        Err(difference) => return Err(Found::Call(keys, difference)),
    };
    tally.count_call(&keys, &made);
    let written = made.map(|script| memory.output.lent()[..script.len()].to_vec());
    let scripts = written.ok().map(|script| Script::new(script, None));
    for script in scripts.into_iter().chain(keys.other) {
        expand(memory, script, &keys.expanded, tally)?;
    }
    Ok(())
}

/// The runs of a script for keys are held to both definitions as all others are.
fn expand(memory: &mut Memory, script: Script, lent: &[Lent], tally: &mut Tally) -> Result<(), Found> {
    if lent.is_empty() {
        return Ok(());
    }
    let substituted = substituted(&script, &lending::bounds(lent.iter().copied()));
    for &lent in lent {
        let run = Run::new(&script, lent);
        let told = run.told(run.scanned.report.most);
        match check::check(memory, &script, run, &substituted) {
            Ok(report) => {
                hold_promise(memory, &script, &lent, &report);
                tally.count(&script, &report, &told, false);
                tally.count_expansion(&script, &lent, &report);
            }
            Err(difference) => return Err(Found::Run(script, difference)),
        }
    }
    Ok(())
}

/// "expanding it finishes with outcome 0 and the wanted bytes". Where both definitions say otherwise, all breaks down.
fn hold_promise(memory: &Memory, script: &Script, lent: &Lent, report: &Report) {
    let wanted = &script.text[1..script.text.len() - 1];
    let length = wanted.len() as u64;
    let promised = Report {
        outcome: 0,
        read: length + 2,
        written: length,
        scans: length + 3,
        most: 0,
        live: 0,
    };
    if lending::suffices(lent, &promised) {
        assert_eq!(*report, promised, "what request Six promises");
        assert!(memory.output.lent().starts_with(wanted), "the wanted bytes");
    }
}
