//! The mix of scripts.
use crate::brim;
use crate::bulk_words;
use crate::faults::PLANTED;
use crate::groups;
use crate::grower::grown;
use crate::lending::LONGEST;
use crate::locked;
use crate::menu_wheels;
use crate::noise;
use crate::own_signs;
use crate::random::Random;
use crate::refused_signs;
use crate::script::Script;
use crate::soak;
use reference::signs::Table;

/// One script in so many is a soak script, one in so many has definitions of shared groups, one in so many a division at
/// its end, one in so many LOCK or UPDATE of what it marked, one in so many comes up to the most cells that may be lent,
/// and one in so many calls the words from M6 with thousands of bytes.
const SOAKS: usize = 25;
const GROUPS: usize = 14;
const DIVISIONS: usize = 25;
const LOCKS: usize = 40;
const BRIMS: usize = 300;
const BULKS: usize = 120;
/// One script in so many asks where each byte came from, and of these one in so many writes at the end of the longest
/// text.
const ASKING: usize = 5;
const FAR: usize = 1_000;

/// How many items a script is grown from: mostly few, seldom hundreds.
fn size(random: &mut Random) -> usize {
    match random.below(80) {
        0..=1 => random.below(2),
        2..=58 => random.between(2, 14),
        59..=78 => random.between(14, 28),
        _ => random.between(28, 300),
    }
}

/// A script with a length about the longest that may be lent: plain bytes stand before it.
fn long(random: &mut Random) -> Vec<u8> {
    let script = grown(random, 6, None);
    let length = random.between(65_534, 65_539);
    let mut text = vec![b'y'; length.saturating_sub(script.len())];
    text.extend(script);
    text
}

/// A text about as long as may be lent, whose last byte writes by one of the rules.
fn far(random: &mut Random) -> Vec<u8> {
    const HEAD: &str = "$DEF,k,<b,~1>;$DEF,j,<($k,~1;$VAL,k;)>;<";
    const ENDS: [&str; 8] = [
        "y",
        ",",
        "<,",
        "$k,cd;",
        "$j,cd;",
        "$VAL,k;",
        "$SIZE,ab;",
        "$IF,1,$k,cd;;",
    ];
    let end = random.pick(&ENDS);
    let length = LONGEST - if random.one_in(4) { random.below(300) } else { 0 };
    let within = "y".repeat(length - HEAD.len() - 1 - end.len());
    format!("{HEAD}{within}>{end}").into_bytes()
}

fn text(random: &mut Random) -> Vec<u8> {
    if random.one_in(2_500) {
        return long(random);
    }
    if random.one_in(BRIMS) {
        return brim::script(random);
    }
    if random.one_in(BULKS) {
        return bulk_words::script(random);
    }
    if random.one_in(SOAKS) {
        return soak::script(random);
    }
    if random.one_in(GROUPS) {
        return groups::script(random);
    }
    if random.one_in(DIVISIONS) {
        return menu_wheels::script(random);
    }
    if random.one_in(LOCKS) {
        return locked::script(random);
    }
    let items = size(random);
    match random.below(100) {
        0..=9 => noise::raw(random, 3 * items),
        10..=40 => {
            let fault = PLANTED[random.below(PLANTED.len())];
            grown(random, items, Some(fault))
        }
        41..=48 => {
            let script = grown(random, items, None);
            noise::edited(script, random)
        }
        49..=52 => {
            let script = grown(random, items, None);
            noise::cut(script, random)
        }
        _ => grown(random, items, None),
    }
}

/// A text whose signs are refused; often it is about the longest, so that 2 comes first.
fn refused(text: Vec<u8>, random: &mut Random) -> Script {
    let text = if random.one_in(40) { long(random) } else { text };
    Script::new(text, Some(refused_signs::refused(random)))
}

/// A script that asks where each byte came from, under the standard signs or under others, some of which are refused.
fn asking(text: Vec<u8>, random: &mut Random) -> Script {
    let text = if random.one_in(FAR) { far(random) } else { text };
    let script = match random.below(20) {
        0..=2 => refused(text, random),
        3..=10 => own_signs::written(text, random),
        _ => Script::new(text, Some(Table::STANDARD.kinds().to_vec())),
    };
    script.asking()
}

/// One in five asks where each byte came from. Of the others two of five have signs that are lent, and of these one in
/// four is refused.
pub fn script(random: &mut Random) -> Script {
    let text = text(random);
    if random.one_in(ASKING) {
        return asking(text, random);
    }
    match random.below(20) {
        0..=1 => refused(text, random),
        2..=7 => own_signs::written(text, random),
        _ => Script::new(text, None),
    }
}
