//! The runs of numbers that are lent where it is asked where each byte came from.
use crate::lending::{too_long, LONGEST};
use crate::random::Random;
use crate::script::Script;
use reference::origins::Numbers;
use reference::scanning::Lent;

/// Far more numbers than any output may have, and the most that memory is kept for.
const FAR: usize = 70_000;
const MOST: usize = 2 * LONGEST;

/// As many as the output has bytes, or more.
fn enough(output: usize, random: &mut Random) -> usize {
    match random.below(64) {
        0..=50 => output,
        51..=58 => output + 1,
        59..=62 => output + random.between(2, 300),
        _ => random.between(output.max(LONGEST - 1), output.max(FAR)),
    }
}

/// Fewer than the output has bytes, where it has any.
fn too_few(output: usize, random: &mut Random) -> usize {
    match random.below(8) {
        0..=3 => output.saturating_sub(1),
        4 => 0,
        5 => output / 2,
        _ => random.below(output.max(1)),
    }
}

/// Both enough.
fn suffices(output: usize, random: &mut Random) -> Numbers {
    Numbers {
        origins: enough(output, random),
        rules: enough(output, random),
    }
}

/// Too few of the first, of the second or of both.
fn too_short(output: usize, random: &mut Random) -> Numbers {
    let numbers = suffices(output, random);
    let few = too_few(output, random);
    match random.below(3) {
        0 => Numbers {
            origins: few,
            ..numbers
        },
        1 => Numbers { rules: few, ..numbers },
        _ if random.one_in(6) => Numbers { origins: 0, rules: 0 },
        _ => Numbers {
            origins: few,
            rules: too_few(output, random),
        },
    }
}

/// What is lent, with numbers enough if the script asks; so the run comes to what it needs.
pub fn with_enough(script: &Script, lent: Lent, random: &mut Random) -> Lent {
    let numbers = script.asks().then(|| suffices(lent.output, random));
    Lent { numbers, ..lent }
}

/// What is lent, with too few numbers if the script asks.
pub fn with_too_few(script: &Script, lent: Lent, random: &mut Random) -> Lent {
    let numbers = script.asks().then(|| too_short(lent.output, random));
    Lent { numbers, ..lent }
}

/// What is lent, with numbers that are now and then too few if the script asks, and every other time where 2 or what
/// refuses the signs comes before 35.
pub fn with_some(script: &Script, lent: Lent, random: &mut Random) -> Lent {
    let before = too_long(&script.text, &lent) || script.checked().is_err();
    if script.asks() && random.one_in(if before { 2 } else { 10 }) {
        with_too_few(script, lent, random)
    } else {
        with_enough(script, lent, random)
    }
}

/// So many more, or fewer, than the output has bytes.
fn beside(lent: &Lent, more: [isize; 2]) -> Lent {
    let [origins, rules] = more.map(|more| lent.output.saturating_add_signed(more).min(MOST));
    Lent {
        numbers: Some(Numbers { origins, rules }),
        ..*lent
    }
}

/// How many more numbers than bytes of output are lent.
fn surplus(lent: &Lent) -> Option<[isize; 2]> {
    let Numbers { origins, rules } = lent.numbers?;
    Some([origins, rules].map(|length| length as isize - lent.output as isize))
}

/// These lent with as many numbers as bytes of output; the first, which has plenty, also with one fewer and one more of
/// each, and with as many more or fewer as a known lending has.
pub fn simplest(lent: Vec<Lent>, known: &Lent) -> Vec<Lent> {
    const BESIDE: [[isize; 2]; 4] = [[-1, 0], [0, -1], [-1, -1], [1, 1]];
    let plenty = lent[0];
    let others = BESIDE.into_iter().chain(surplus(known));
    let others: Vec<Lent> = others.map(|more| beside(&plenty, more)).collect();
    lent.iter().map(|lent| beside(lent, [0, 0])).chain(others).collect()
}
