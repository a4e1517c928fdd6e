//! Keys that a script is wanted for: bytes whose quotes match or all but match, the output lent for the script, and
//! what its expansions are lent.
use crate::lending::LONGEST;
use crate::own_signs;
use crate::random::Random;
use crate::script::Script;
use reference::keys::{script_for, LONGEST_WANTED};
use reference::scanning::Lent;

/// Keys in so many are about the longest that may be lent.
const LONG: usize = 11;
/// Longer scripts are expanded seldom, as each run takes milliseconds.
const SHORT: usize = 1_000;

/// What a call of `gpm_script` is lent, and what becomes of the keys afterwards.
#[derive(Clone)]
pub struct Keys {
    pub wanted: Vec<u8>,
    pub output: usize,
    /// What the runs of the script are lent, if there is one.
    pub expanded: Vec<Lent>,
    /// The script for these keys under other signs, which is expanded with the same lent.
    pub other: Option<Script>,
}

impl Keys {
    /// The call alone.
    pub fn call(wanted: Vec<u8>, output: usize) -> Keys {
        Keys {
            wanted,
            output,
            expanded: Vec::new(),
            other: None,
        }
    }

    /// Whether more output is lent than most scripts need.
    pub fn with_plenty(&self) -> bool {
        (plenty(self.wanted.len())..=LONGEST).contains(&self.output)
    }
}

/// Output for keys of this length.
fn plenty(length: usize) -> usize {
    (length + 2).clamp(8_192, LONGEST)
}

/// The weights of a quote, an unquote and another byte: none, few, many, side by side, deep, and hardly anything else.
const MIXES: [[usize; 3]; 6] = [[0, 0, 1], [1, 1, 6], [1, 1, 1], [2, 12, 3], [8, 1, 2], [12, 12, 1]];

/// A byte that is no quote, of one sort: of key names, signs among them, at an end of a range or beside a quote, any.
fn other(sort: usize, random: &mut Random) -> u8 {
    const SORTS: [&[u8]; 3] = [b"STARTstop 0189", b"$$,;~k12a", b"\x00\x01\x7f\x80\xff;=?\n\xbc\xbe|~"];
    match SORTS.get(sort) {
        Some(bytes) => bytes[random.below(bytes.len())],
        None => loop {
            let byte = random.byte();
            if !b"<>".contains(&byte) {
                return byte;
            }
        },
    }
}

/// So many bytes whose quotes match.
fn matched(length: usize, random: &mut Random) -> Vec<u8> {
    let mix = MIXES[random.below(MIXES.len())];
    let sort = random.below(4);
    let mut open = 0;
    let byte = |left: usize| {
        let may = [left >= open + 2, open > 0, left > open];
        let weights = mix.iter().zip(may).map(|(&weight, may)| weight * usize::from(may));
        match random.weighted(weights) {
            0 => {
                open += 1;
                b'<'
            }
            1 => {
                open -= 1;
                b'>'
            }
            _ => other(sort, random),
        }
    };
    (1..=length).rev().map(byte).collect()
}

/// A power of two with up to so many bits, often one fewer or one more.
fn about_power(bits: usize, random: &mut Random) -> usize {
    let power = 1 << random.below(bits + 1);
    match random.below(4) {
        0 => power - 1,
        1 => power + 1,
        _ => power,
    }
}

/// Quotes so deep, with these bytes within.
fn nested(depth: usize, within: &[u8]) -> Vec<u8> {
    [&b"<".repeat(depth), within, &b">".repeat(depth)].concat()
}

fn short(random: &mut Random) -> Vec<u8> {
    let length = match random.below(24) {
        0..=1 => 0,
        2..=3 => 1,
        4..=16 => random.between(2, 24),
        17..=21 => random.between(24, 120),
        22 => random.between(120, 700),
        _ => random.between(700, 3_000),
    };
    let bytes = matched(length, random);
    match random.below(8) {
        0 => nested(about_power(9, random), &bytes),
        _ => bytes,
    }
}

/// So many bytes, of which most stand again and again, or nest as deep as they can.
fn filling(length: usize, random: &mut Random) -> Vec<u8> {
    let deep = |depth: usize| nested(depth, &b"y".repeat(length - 2 * depth));
    match random.below(8) {
        0..=1 => deep(length / 2),
        2 => deep(about_power(15, random).min(length / 2)),
        3..=4 => vec![other(3, random); length],
        _ => {
            let size = random.between(1, 60);
            let mut bytes = matched(size, random).repeat(length / size);
            bytes.resize(length, b'y');
            bytes
        }
    }
}

fn long_length(random: &mut Random) -> usize {
    match random.below(40) {
        0..=17 => LONGEST_WANTED,
        18..=34 => random.between(LONGEST_WANTED - 4, LONGEST_WANTED + 6),
        35 => 2 * LONGEST,
        _ => random.between(SHORT, LONGEST_WANTED),
    }
}

fn long(length: usize, random: &mut Random) -> Vec<u8> {
    let about = if random.one_in(2) { 30 } else { 1 };
    let (before, after) = (random.below(about), random.below(about));
    let within = length - before - after;
    [matched(before, random), filling(within, random), matched(after, random)].concat()
}

/// So many bytes, the first of them quotes that are left open; a count in few bits would come to 0 by them.
fn left_open(length: usize, random: &mut Random) -> Vec<u8> {
    let quotes = 1 << random.between(10, 15);
    let mut bytes = b"<".repeat(quotes.min(length));
    bytes.resize(length, b'y');
    bytes
}

/// A place in so many, the first and the last more often.
fn place(places: usize, random: &mut Random) -> usize {
    match random.below(4) {
        0 => 0,
        1 => places.saturating_sub(1),
        _ => random.below(places.max(1)),
    }
}

/// The place of one of the quotes, the first and the last more often.
fn quote(bytes: &[u8], random: &mut Random) -> Option<usize> {
    let quotes: Vec<usize> = (0..bytes.len()).filter(|&at| b"<>".contains(&bytes[at])).collect();
    quotes.get(place(quotes.len(), random)).copied()
}

/// Puts one quote too many, or several, or quotes in the wrong order.
fn too_many(bytes: &mut Vec<u8>, random: &mut Random) {
    let at = place(bytes.len() + 1, random);
    let quotes = match random.below(8) {
        0..=1 => b"<".to_vec(),
        2..=3 => b">".to_vec(),
        4 => b"><".to_vec(),
        5..=6 => b"<".repeat(about_power(12, random)),
        _ => b">".repeat(about_power(9, random)),
    };
    bytes.splice(at..at, quotes);
}

/// Takes a quote out, or makes it the other one or a plain byte; or makes a quote of another byte. The length stays but
/// for the first.
fn another(bytes: &mut Vec<u8>, random: &mut Random) {
    let any = place(bytes.len(), random);
    let at = quote(bytes, random).filter(|_| !random.one_in(4)).unwrap_or(any);
    if at >= bytes.len() {
        return bytes.push(b'>');
    }
    let (byte, way) = (bytes[at], random.below(3));
    if b"<>".contains(&byte) && way == 0 {
        bytes.remove(at);
        return;
    }
    bytes[at] = match (byte, way) {
        (b'<' | b'>', 1) => b'y',
        (b'<', _) => b'>',
        (b'>', _) | (_, 0) => b'<',
        _ => b'>',
    };
}

/// Exchanges the first quote and the last unquote, or all quotes, or turns all bytes round; there are as many of each.
fn exchanged(bytes: &mut [u8], random: &mut Random) {
    let first = bytes.iter().position(|&byte| byte == b'<');
    let last = bytes.iter().rposition(|&byte| byte == b'>');
    match (first, last, random.below(3)) {
        (Some(first), Some(last), 0) => bytes.swap(first, last),
        (_, _, 1) => bytes.reverse(),
        _ => {
            for byte in bytes.iter_mut().filter(|byte| b"<>".contains(byte)) {
                *byte ^= b'<' ^ b'>';
            }
        }
    }
}

/// Bytes whose quotes mostly do not match.
fn broken(mut bytes: Vec<u8>, random: &mut Random) -> Vec<u8> {
    match random.below(8) {
        0..=3 => too_many(&mut bytes, random),
        4..=5 => another(&mut bytes, random),
        _ => exchanged(&mut bytes, random),
    }
    bytes
}

fn wanted(random: &mut Random) -> Vec<u8> {
    if random.one_in(LONG) {
        let length = long_length(random);
        let mut bytes = match random.below(6) {
            0 => left_open(length, random),
            1 => broken(long(length, random), random),
            _ => long(length, random),
        };
        bytes.resize(length, b'y');
        return bytes;
    }
    match (short(random), random.below(10)) {
        (bytes, 0..=4) => bytes,
        // Raw bytes have quotes now and then.
        (bytes, 5) => (0..bytes.len()).map(|_| random.byte()).collect(),
        (bytes, _) => broken(bytes, random),
    }
}

/// About what the script needs, about the longest that may be lent, hardly any, or plenty.
fn output(length: usize, random: &mut Random) -> usize {
    match random.below(24) {
        // Too many keys come with too much output as well if that is about what they need.
        0..=10 if length > LONGEST_WANTED => LONGEST,
        0..=5 => length + 2,
        6..=8 => length + 1,
        9 => length,
        10 => length + 3,
        11..=12 => 0,
        13 => random.between(1, 2),
        14 => random.below(length + 2),
        15 => random.between(LONGEST - 2, LONGEST + 4),
        16 => LONGEST + 1,
        _ => plenty(length),
    }
}

/// What runs of a script for keys of this length may be lent, each with how seldom it is: what it needs, a scan or a
/// byte fewer, cells that it has no need of, and plenty.
fn lendings(length: usize, random: &mut Random) -> [(usize, Lent); 5] {
    let needs = Lent {
        cells: 0,
        output: length,
        allowance: length as u64 + 3,
        numbers: None,
    };
    let (allowance, output) = (needs.allowance - 1, length.saturating_sub(1));
    let cells = random.between(1, 100);
    let plenty = Lent {
        cells: 4_096,
        output: plenty(length),
        allowance: u64::MAX,
        numbers: None,
    };
    [
        (1, needs),
        (3, Lent { allowance, ..needs }),
        (3, Lent { output, ..needs }),
        (6, Lent { cells, ..needs }),
        (12, plenty),
    ]
}

fn lent(length: usize, random: &mut Random) -> Vec<Lent> {
    if length > SHORT && !random.one_in(8) {
        return Vec::new();
    }
    let lendings = lendings(length, random).into_iter();
    lendings
        .filter(|&(seldom, _)| random.one_in(seldom))
        .map(|(_, lent)| lent)
        .collect()
}

/// The script for the keys written with other signs, if there is one.
fn under_other_signs(wanted: &[u8], random: &mut Random) -> Option<Script> {
    let (wanted, signs) = own_signs::rewritten(wanted.to_vec(), random);
    let call = Script::new(wanted, Some(signs));
    let script = script_for(call.checked(), &call.text, LONGEST).ok()?;
    Some(call.with_text(script))
}

pub fn keys(random: &mut Random) -> Keys {
    let wanted = wanted(random);
    let output = output(wanted.len(), random);
    let expanded = lent(wanted.len(), random);
    let other = if random.one_in(4) && !expanded.is_empty() {
        under_other_signs(&wanted, random)
    } else {
        None
    };
    Keys {
        wanted,
        output,
        expanded,
        other,
    }
}
