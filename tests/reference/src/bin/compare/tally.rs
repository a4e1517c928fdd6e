//! How often each outcome was come to, each way that `~`, the charge, the words from M6, empty names, divisions, origins,
//! locks and lookups went, and each row about signs that are lent and about keys.
use crate::charging;
use crate::check::Told;
use crate::dividing;
use crate::fetching;
use crate::finding;
use crate::giving;
use crate::keying::{self, CALLS, RUNS};
use crate::keys::Keys;
use crate::locking;
use crate::naming;
use crate::script::Script;
use crate::signing::{self, ROWS};
use crate::tracing;
use reference::ends::{sort, Report};
use reference::keys::Made;
use reference::scanning::Lent;

const OUTCOMES: usize = 37;
/// The outcome of a call for keys that no run has.
const NONE: usize = 34;
/// The ways of `~` are counted in the places after the outcomes, then those of the charge, those of the words from M6,
/// those of empty names, those of divisions, those of origins, those of locks, those of lookups, then the rows of signs,
/// those of calls for keys and those of the runs of their scripts.
const FIRST_OF_CHARGE: usize = OUTCOMES + fetching::WAYS.len();
const FIRST_OF_WORDS: usize = FIRST_OF_CHARGE + charging::WAYS.len();
const FIRST_OF_NAMES: usize = FIRST_OF_WORDS + giving::WAYS.len();
const FIRST_OF_DIVISIONS: usize = FIRST_OF_NAMES + naming::WAYS.len();
const FIRST_OF_ORIGINS: usize = FIRST_OF_DIVISIONS + dividing::WAYS.len();
const FIRST_OF_LOCKS: usize = FIRST_OF_ORIGINS + tracing::WAYS;
const FIRST_OF_FINDS: usize = FIRST_OF_LOCKS + locking::WAYS.len();
const FIRST_ROW: usize = FIRST_OF_FINDS + finding::WAYS.len();
const FIRST_OF_CALLS: usize = FIRST_ROW + ROWS.len();
const FIRST_OF_RUNS: usize = FIRST_OF_CALLS + CALLS.len();
const PLACES: usize = FIRST_OF_RUNS + RUNS.len();

/// Each must occur, so that a comparison that never comes to it does not pass. Few texts are so long as to give 2.
fn asked(place: usize) -> bool {
    match place {
        FIRST_OF_RUNS.. => RUNS[place - FIRST_OF_RUNS].1,
        FIRST_OF_CALLS.. => CALLS[place - FIRST_OF_CALLS].1,
        FIRST_ROW.. => ROWS[place - FIRST_ROW].1,
        FIRST_OF_LOCKS.. => true,
        FIRST_OF_ORIGINS.. => tracing::asked(place - FIRST_OF_ORIGINS),
        NONE.. => true,
        _ => place != 2 && sort(place as u64).is_some(),
    }
}

fn label(place: usize) -> String {
    match place {
        FIRST_OF_RUNS.. => RUNS[place - FIRST_OF_RUNS].0.to_string(),
        FIRST_OF_CALLS.. => CALLS[place - FIRST_OF_CALLS].0.to_string(),
        FIRST_ROW.. => ROWS[place - FIRST_ROW].0.to_string(),
        FIRST_OF_FINDS.. => finding::WAYS[place - FIRST_OF_FINDS].to_string(),
        FIRST_OF_LOCKS.. => locking::WAYS[place - FIRST_OF_LOCKS].to_string(),
        FIRST_OF_ORIGINS.. => tracing::label(place - FIRST_OF_ORIGINS).to_string(),
        FIRST_OF_DIVISIONS.. => dividing::WAYS[place - FIRST_OF_DIVISIONS].0.to_string(),
        FIRST_OF_NAMES.. => naming::WAYS[place - FIRST_OF_NAMES].to_string(),
        FIRST_OF_WORDS.. => giving::WAYS[place - FIRST_OF_WORDS].to_string(),
        FIRST_OF_CHARGE.. => charging::WAYS[place - FIRST_OF_CHARGE].to_string(),
        OUTCOMES.. => fetching::WAYS[place - OUTCOMES].to_string(),
        _ => place.to_string(),
    }
}

/// The places of the ways that a run came to, from the first of them on.
fn places_of(ways: &[bool], first: usize) -> impl Iterator<Item = usize> + '_ {
    (first..).zip(ways).filter(|(_, &came)| came).map(|(place, _)| place)
}

/// The places that a run counts in.
fn places<'a>(script: &'a Script, report: &'a Report, told: &'a Told) -> impl Iterator<Item = usize> + 'a {
    let rows = signing::rows(script, report).into_iter();
    places_of(&told.fetching, OUTCOMES)
        .chain(places_of(&told.charging, FIRST_OF_CHARGE))
        .chain(places_of(&told.giving, FIRST_OF_WORDS))
        .chain(places_of(&told.naming, FIRST_OF_NAMES))
        .chain(places_of(&told.dividing, FIRST_OF_DIVISIONS))
        .chain(places_of(&told.tracing, FIRST_OF_ORIGINS))
        .chain(places_of(&told.locking, FIRST_OF_LOCKS))
        .chain(places_of(&told.finding, FIRST_OF_FINDS))
        .chain(rows.map(|row| FIRST_ROW + row))
        .chain([report.outcome as usize])
}

pub struct Tally {
    all: [u64; PLACES],
    with_plenty: [u64; PLACES],
    /// Runs, and calls for keys.
    runs: u64,
    calls: u64,
    /// Scripts whose signs were lent, and those that asked where each byte came from.
    signs_lent: u64,
    asked: u64,
    /// Finished with 0 after reading bodies, with plenty lent.
    worked: u64,
    scans: u64,
}

impl Tally {
    pub fn new() -> Tally {
        Tally {
            all: [0; PLACES],
            with_plenty: [0; PLACES],
            runs: 0,
            calls: 0,
            signs_lent: 0,
            asked: 0,
            worked: 0,
            scans: 0,
        }
    }

    pub fn count(&mut self, script: &Script, report: &Report, told: &Told, plenty: bool) {
        for place in places(script, report, told) {
            self.count_place(place, plenty);
        }
        self.runs += 1;
        self.signs_lent += u64::from(plenty && script.signs().is_some());
        self.asked += u64::from(plenty && script.asks());
        self.worked += u64::from(plenty && signing::finished_after_bodies(report));
        self.scans += report.scans;
    }

    fn count_place(&mut self, place: usize, plenty: bool) {
        self.all[place] += 1;
        self.with_plenty[place] += u64::from(plenty);
    }

    pub fn count_call(&mut self, keys: &Keys, made: &Made) {
        for row in keying::of_call(keys, made) {
            self.count_place(FIRST_OF_CALLS + row, keys.with_plenty());
        }
        if *made == Err(NONE as u64) {
            self.count_place(NONE, keys.with_plenty());
        }
        self.calls += 1;
    }

    /// A run of a script for keys, which is counted as a run too.
    pub fn count_expansion(&mut self, script: &Script, lent: &Lent, report: &Report) {
        for row in keying::of_run(script, lent, report) {
            self.count_place(FIRST_OF_RUNS + row, false);
        }
    }

    fn too_few(&self, place: usize, cases: u64) -> bool {
        asked(place) && cases >= 1_000 && self.all[place] < cases / 1_000
    }

    /// How many of the places asked for were come to often enough, and how many were not.
    pub fn often_enough(&self, cases: u64) -> (u64, u64) {
        if cases < 1_000 {
            return (0, 0);
        }
        let places = (0..PLACES).filter(|&place| asked(place));
        let (few, enough): (Vec<usize>, Vec<usize>) = places.partition(|&place| self.too_few(place, cases));
        (enough.len() as u64, few.len() as u64)
    }

    pub fn print(&self, cases: u64) {
        println!("{:>22}  in all checks  with plenty lent", "outcome");
        for (place, (all, with_plenty)) in self.all.iter().zip(self.with_plenty).enumerate() {
            let few = self.too_few(place, cases);
            if *all > 0 || few {
                println!(
                    "{:>22}{all:15}{with_plenty:18}{}",
                    label(place),
                    if few { "  too few" } else { "" }
                );
            }
        }
        let scripts = cases - self.calls;
        println!(
            "{scripts} scripts, {} with signs lent, {} of which ask for origins, and {} calls for keys",
            self.signs_lent, self.asked, self.calls
        );
        println!(
            "{} runs, {} scans; {} finished with 0 after reading bodies",
            self.runs, self.scans, self.worked
        );
    }
}
