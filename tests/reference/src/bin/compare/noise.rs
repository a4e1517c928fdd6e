//! Scripts that nobody would write: raw bytes, loose tokens, and well-formed scripts edited at random or cut.
use crate::random::Random;

const TOKENS: [&str; 35] = [
    "$DEF,", "$DEF,a,<", "$DEF,b,", "$a", "$b;", "$a,", "$VAL,a;", "$UPDATE,", "$LOCK,a;", "$+,1,", "$Rem,", "$SEQ,a,",
    "$SIZE,", "$IF,1,", "$IF,0,a,", "a", "b", "x", "1", "-7", ",", ",", ";", ";", ";", "~1", "~0", "~2", "~a", "~z",
    "~", "<", ">", ">;", "$",
];

fn plain_or_sign(random: &mut Random) -> u8 {
    const SIGNS: &[u8] = b"$$$,,,;;;;~~<>";
    const PLAIN: &[u8] = b"ab01kDEFVALIxy-+*";
    match random.below(8) {
        0..=3 => SIGNS[random.below(SIGNS.len())],
        4..=6 => PLAIN[random.below(PLAIN.len())],
        _ => random.byte(),
    }
}

/// One token again and again, then another: calls, lists and quotes deeper and longer than anyone would write.
fn repeated(random: &mut Random, length: usize) -> Vec<u8> {
    let (opening, closing) = (random.pick(&TOKENS), random.pick(&TOKENS));
    let start = if random.one_in(2) { "$DEF,a,<~1>;$DEF,b,;" } else { "" };
    format!("{start}{}x{}", opening.repeat(length), closing.repeat(length)).into_bytes()
}

/// Bytes of any kind, mostly signs, or loose tokens.
pub fn raw(random: &mut Random, length: usize) -> Vec<u8> {
    match random.below(10) {
        0..=2 => (0..length).map(|_| random.byte()).collect(),
        3..=5 => (0..length).map(|_| plain_or_sign(random)).collect(),
        6..=8 => (0..length / 2).flat_map(|_| random.pick(&TOKENS).bytes()).collect(),
        _ => repeated(random, length),
    }
}

fn edit(script: &mut Vec<u8>, random: &mut Random) {
    let place = random.below(script.len() + 1);
    let byte = plain_or_sign(random);
    match random.below(5) {
        0 | 1 => script.insert(place, byte),
        2 if place < script.len() => script[place] = byte,
        3 if place < script.len() => drop(script.remove(place)),
        _ => {
            let end = (place + random.between(1, 12)).min(script.len());
            let piece = script[place..end].to_vec();
            let to = random.below(script.len() + 1);
            script.splice(to..to, piece);
        }
    }
}

/// A few bytes put in, changed, taken out, or a piece said twice.
pub fn edited(mut script: Vec<u8>, random: &mut Random) -> Vec<u8> {
    for _ in 0..random.between(1, 4) {
        edit(&mut script, random);
    }
    script
}

pub fn cut(mut script: Vec<u8>, random: &mut Random) -> Vec<u8> {
    script.truncate(random.below(script.len() + 1));
    script
}
