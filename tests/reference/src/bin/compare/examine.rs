//! One script: with plenty, about what it needs, often about a record of its charge, with one cell fewer than 33 or 36
//! needs or up to a LOCK, with all that may be lent where the cells were soon too few or hundreds of definitions stand,
//! now and then about the longest that may be lent, and where it asks for origins often with too few numbers.
use crate::asking;
use crate::check::{check, substituted, Difference, Run};
use crate::lending;
use crate::memory::Memory;
use crate::random::Random;
use crate::script::Script;
use crate::tally::Tally;
use reference::scanning::Lent;

/// Scripts with so many scans have one run about what they need, others two.
const LONG: u64 = 300;

/// So many definitions are hundreds.
const MANY: u64 = 200;

/// The runs of a script; the first is the one with plenty.
pub fn runs(script: &Script, random: &mut Random) -> Vec<Run> {
    let plenty = lending::generous(&script.text, random);
    let first = Run::new(script, asking::with_enough(script, plenty, random));
    let need = first.scanned.report;
    let soon_too_few = need.outcome == 4 && (need.scans < LONG || need.live > MANY);
    let about = about(&first, &plenty, random);
    let mut runs = vec![first];
    runs.extend(about.into_iter().map(|lent| with_some(script, lent, random)));
    if soon_too_few {
        runs.extend(with_all(script, &plenty, random));
    }
    // Always where the cells were soon too few, and often where the signs or the numbers may be refused, as 2 comes
    // before that.
    let seldom = match script.checked() {
        _ if soon_too_few => 1,
        Err(_) => 8,
        Ok(_) if script.asks() => 12,
        Ok(_) => 250,
    };
    if random.one_in(seldom) {
        let longest = lending::longest(&need, &plenty, random);
        runs.push(with_some(script, longest, random));
    }
    if script.asks() && random.one_in(3) {
        runs.push(Run::new(script, asking::with_too_few(script, plenty, random)));
    }
    runs
}

/// What is lent about the needs that the run with plenty came to.
fn about(first: &Run, plenty: &Lent, random: &mut Random) -> Vec<Lent> {
    let need = &first.scanned.report;
    let times = if need.scans < LONG { 2 } else { 1 };
    let mut about: Vec<Lent> = (0..times).map(|_| lending::around(need, plenty, random)).collect();
    let records = first.course.inner_records();
    if !records.is_empty() && random.one_in(4) {
        about.push(lending::about_record(records, plenty, random));
    }
    if matches!(need.outcome, 33 | 36) && random.one_in(2) {
        about.push(lending::one_cell_short(need, plenty));
    }
    if let Some(scan) = first.locks.last().filter(|_| random.one_in(8)) {
        about.push(lending::about_scan(scan, plenty, random));
    }
    if let Some(charge) = first.locks.highest().filter(|_| random.one_in(4)) {
        about.push(lending::about_charge(charge, plenty, random));
    }
    about
}

fn with_some(script: &Script, lent: Lent, random: &mut Random) -> Run {
    Run::new(script, asking::with_some(script, lent, random))
}

/// The run with all that may be lent, and one about what it needs.
fn with_all(script: &Script, plenty: &Lent, random: &mut Random) -> [Run; 2] {
    let all = lending::all(plenty);
    let run = Run::new(script, asking::with_enough(script, all, random));
    let about = lending::around(&run.scanned.report, &all, random);
    [run, with_some(script, about, random)]
}

/// Every check of one script, to the first difference.
pub fn examine(memory: &mut Memory, script: &Script, runs: Vec<Run>, tally: &mut Tally) -> Result<(), Box<Difference>> {
    let substituted = substituted(script, &lending::bounds(runs.iter().map(|run| run.lent)));
    let with_plenty = runs[0].scanned.report.most;
    for (place, run) in runs.into_iter().enumerate() {
        let told = run.told(with_plenty);
        let report = check(memory, script, run, &substituted)?;
        tally.count(script, &report, &told, place == 0);
    }
    Ok(())
}

/// The simplest lending at which a script shows a difference. One known lending is tried too, unless its allowance is
/// more than plenty and the script might use it all.
pub fn simplest(memory: &mut Memory, script: &Script, known: Lent) -> Option<Box<Difference>> {
    let plenty = lending::generous(&script.text, &mut Random::new(0, 0));
    let need = Run::new(script, plenty).scanned.report;
    let mut lent = lending::combinations(&need, &plenty);
    if script.asks() {
        lent = asking::simplest(lent, &known);
    }
    if lending::ended(&need) || known.allowance <= plenty.allowance {
        let numbers = known.numbers.filter(|_| script.asks());
        lent.push(Lent { numbers, ..known });
    }
    let substituted = substituted(script, &lending::bounds(lent.iter().copied()));
    lent.into_iter()
        .find_map(|lent| check(memory, script, Run::new(script, lent), &substituted).err())
}
