//! Signs that are refused: most are one step from being accepted, others have several faults or another length.
use crate::lending::LONGEST;
use crate::own_signs;
use crate::random::Random;

/// The bytes that are never signs.
pub const NEVER: [&[u8]; 4] = [
    b"ABCDEFGHIJKLMNOPQRSTUVWXYZ",
    b"abcdefghijklmnopqrstuvwxyz",
    b"0123456789",
    b"+-*",
];

/// The first and the last of so many places more often.
fn place(places: usize, random: &mut Random) -> usize {
    match random.below(8) {
        0 => 0,
        1 => places - 1,
        _ => random.below(places),
    }
}

/// One of the bytes that are never signs, letters more often, as there are more of them.
fn never(random: &mut Random) -> usize {
    let bytes = NEVER[random.weighted([3, 3, 1, 1].into_iter())];
    usize::from(bytes[place(bytes.len(), random)])
}

/// A byte that is a sign, unless none is.
fn sign(entries: &[u8], random: &mut Random) -> usize {
    let signs: Vec<usize> = (0..entries.len()).filter(|&byte| entries[byte] > 0).collect();
    signs.get(random.below(signs.len().max(1))).copied().unwrap_or_default()
}

type Fault = fn(&mut [u8], &mut Random);

const FAULTS: [(usize, Fault); 6] = [
    (5, above_six),
    (2, no_byte),
    (2, several_bytes),
    (1, several_with_one_never),
    (1, another_kind),
    (19, never_a_sign),
];

/// At a byte that was a sign, or at any.
fn above_six(entries: &mut [u8], random: &mut Random) {
    let byte = if random.one_in(3) {
        sign(entries, random)
    } else {
        place(entries.len(), random)
    };
    entries[byte] = match random.below(8) {
        0..=2 => 7,
        3 => 8,
        4 => 36,
        5 => 255,
        _ => random.between(7, 255) as u8,
    };
}

fn no_byte(entries: &mut [u8], random: &mut Random) {
    entries[sign(entries, random)] = 0;
}

fn several_bytes(entries: &mut [u8], random: &mut Random) {
    let plain = place(entries.len(), random);
    entries[plain] = entries[sign(entries, random)];
}

/// 31 before 32.
fn several_with_one_never(entries: &mut [u8], random: &mut Random) {
    entries[never(random)] = entries[sign(entries, random)];
}

/// One sign with no byte and mostly another with two.
fn another_kind(entries: &mut [u8], random: &mut Random) {
    entries[sign(entries, random)] = random.between(1, 6) as u8;
}

/// A sign moves to a byte that is never one.
fn never_a_sign(entries: &mut [u8], random: &mut Random) {
    entries.swap(sign(entries, random), never(random));
}

fn with_faults(mut entries: Vec<u8>, faults: usize, random: &mut Random) -> Vec<u8> {
    for _ in 0..faults {
        let fault = random.weighted(FAULTS.iter().map(|fault| fault.0));
        FAULTS[fault].1(&mut entries, random);
    }
    entries
}

/// Entries that are accepted, cut, or with zeros or themselves after them; or any entries.
fn of_length(length: usize, entries: Vec<u8>, random: &mut Random) -> Vec<u8> {
    let highest = random.pick(&[&1, &6, &7, &255]);
    match random.below(5) {
        0..=1 => entries.into_iter().chain(std::iter::repeat(0)).take(length).collect(),
        2 => entries.into_iter().cycle().take(length).collect(),
        3 => entries.into_iter().cycle().skip(1).take(length).collect(),
        _ => (0..length).map(|_| random.between(0, *highest) as u8).collect(),
    }
}

fn of_another_length(entries: Vec<u8>, random: &mut Random) -> Vec<u8> {
    let length = match random.below(20) {
        0..=2 => 0,
        3..=7 => 255,
        8..=12 => 257,
        13..=14 => LONGEST,
        15 => LONGEST + 1,
        _ => random.below(1_024),
    };
    of_length(length, entries, random)
}

pub fn refused(random: &mut Random) -> Vec<u8> {
    let entries = own_signs::accepted(random);
    match random.below(20) {
        0..=3 => of_another_length(entries, random),
        4 => of_length(entries.len(), entries, random),
        5..=7 => {
            let faults = random.between(2, 4);
            with_faults(entries, faults, random)
        }
        _ => with_faults(entries, 1, random),
    }
}
