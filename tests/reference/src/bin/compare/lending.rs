//! What a run is lent: plenty, or sizes about what the script needs, or sizes about the longest that may be lent.
use crate::random::Random;
use reference::ends::{Report, Sort};
use reference::scanning::Lent;
use reference::substitution::Bounds;

/// Text, cells and output may each be lent so long.
pub const LONGEST: usize = 65_536;

/// Whether the run is outcome 2.
pub fn too_long(text: &[u8], lent: &Lent) -> bool {
    text.len() > LONGEST || lent.cells > LONGEST || lent.output > LONGEST
}

/// Whether the run is outcome 35, unless it is 2 or the signs are refused.
pub fn numbers_too_short(lent: &Lent) -> bool {
    let numbers = lent.numbers.map(|numbers| numbers.origins.min(numbers.rules));
    numbers.is_some_and(|shorter| shorter < lent.output)
}

/// Whether what is lent suffices for an end with these counts.
pub fn suffices(lent: &Lent, end: &Report) -> bool {
    lent.cells as u64 >= end.most && lent.output as u64 >= end.written && lent.allowance >= end.scans
}

/// Whether the run stopped for no want of what was lent.
pub fn ended(report: &Report) -> bool {
    !report.is(Sort::Want)
}

/// Enough for most scripts; a text that is copied whole ends within it.
pub fn generous(text: &[u8], random: &mut Random) -> Lent {
    let cells = if random.one_in(16) { 16_384 } else { 4_096 };
    Lent {
        cells,
        output: text.len().clamp(8_192, LONGEST),
        allowance: 20_000 + text.len() as u64,
        numbers: None,
    }
}

/// One of the three sizes: exactly what is needed, one fewer, one more, some of it, none, or plenty.
fn near(need: u64, plenty: u64, random: &mut Random) -> u64 {
    match random.below(20) {
        0..=3 => need,
        4..=6 => need.saturating_sub(1),
        7 => need + 1,
        8..=9 => random.below(need as usize + 1) as u64,
        10 => 0,
        _ => plenty,
    }
}

/// Sizes about those that the run with plenty came to.
pub fn around(need: &Report, plenty: &Lent, random: &mut Random) -> Lent {
    Lent {
        cells: near(need.most, plenty.cells as u64, random) as usize,
        output: near(need.written, plenty.output as u64, random) as usize,
        allowance: near(need.scans, plenty.allowance, random),
        numbers: None,
    }
}

/// Cells about a record that the charge fell from and rose above later, mostly a late one: exactly so many, one fewer,
/// one more. With exactly so many 4 comes where the charge rises above the record, after cells were freed.
pub fn about_record(records: &[usize], plenty: &Lent, random: &mut Random) -> Lent {
    let late = random.below(records.len()).max(random.below(records.len()));
    let cells = match random.below(4) {
        0..=1 => records[late],
        2 => records[late] - 1,
        _ => records[late] + 1,
    };
    Lent { cells, ..*plenty }
}

/// One cell fewer than the run with plenty came to; where the charge is highest at its last `;`, 4 comes there.
pub fn one_cell_short(need: &Report, plenty: &Lent) -> Lent {
    Lent {
        cells: (need.most as usize).saturating_sub(1),
        ..*plenty
    }
}

/// An allowance that is used with a scan, or just before it.
pub fn about_scan(scan: u64, plenty: &Lent, random: &mut Random) -> Lent {
    let allowance = scan - u64::from(random.one_in(2));
    Lent { allowance, ..*plenty }
}

/// Mostly one cell fewer than a charge that was the highest so far, and else exactly so many.
pub fn about_charge(charge: usize, plenty: &Lent, random: &mut Random) -> Lent {
    let cells = charge - usize::from(!random.one_in(4));
    Lent { cells, ..*plenty }
}

/// All cells and all output that may be lent.
pub fn all(plenty: &Lent) -> Lent {
    Lent {
        cells: LONGEST,
        output: LONGEST,
        ..*plenty
    }
}

/// Sizes about the longest that may be lent, mostly as many cells as may be where plenty was not enough; the allowance
/// has no bound where the script has an end.
pub fn longest(need: &Report, plenty: &Lent, random: &mut Random) -> Lent {
    let most_cells = need.outcome == 4 && !random.one_in(4);
    let mut size = |plenty: usize| {
        if random.one_in(2) {
            random.between(LONGEST - 1, LONGEST + 2)
        } else {
            plenty
        }
    };
    let (cells, output) = (
        size(if most_cells { LONGEST } else { plenty.cells }),
        size(plenty.output),
    );
    Lent {
        cells,
        output,
        allowance: if ended(need) { u64::MAX } else { plenty.allowance },
        numbers: None,
    }
}

/// Every combination of plenty, exactly what is needed, one fewer, one more and none; those with most plenty first.
pub fn combinations(need: &Report, plenty: &Lent) -> Vec<Lent> {
    let sizes = |need: u64, plenty: u64| [plenty, need, need.saturating_sub(1), need + 1, 0];
    let cells = sizes(need.most, plenty.cells as u64).map(|cells| cells as usize);
    let output = sizes(need.written, plenty.output as u64).map(|output| output as usize);
    let allowance = sizes(need.scans, plenty.allowance);
    let mut places: Vec<[usize; 3]> = (0..125).map(|count| [count / 25, count / 5 % 5, count % 5]).collect();
    places.sort_by_key(|places| places.iter().filter(|&&place| place > 0).count());
    let lent = |[first, second, third]: [usize; 3]| Lent {
        cells: cells[first],
        output: output[second],
        allowance: allowance[third],
        numbers: None,
    };
    places.into_iter().map(lent).collect()
}

/// Bounds of substitution that no run with any of these goes beyond: an open call is charged at least 4.
pub fn bounds(lent: impl Iterator<Item = Lent>) -> Bounds {
    let none = Bounds {
        depth: 0,
        scans: 0,
        charge: 0,
        output: 0,
    };
    lent.fold(none, |bounds, lent| Bounds {
        depth: bounds.depth.max(lent.cells / 4 + 2),
        scans: bounds.scans.max(lent.allowance),
        charge: bounds.charge.max(lent.cells),
        output: bounds.output.max(lent.output),
    })
}
