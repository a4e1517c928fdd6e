//! Signs that are accepted, and scripts written with them.
use crate::grower::SIGNS;
use crate::random::Random;
use crate::script::Script;

/// Six bytes, in the order of their kinds.
type Six = [u8; 6];

/// A byte that may be a sign: often one beside those that may not, or at an end of a range.
fn byte(random: &mut Random) -> u8 {
    const EDGES: &[u8] = b"@[`{/:,.)\x00\x1f \x7f\x80\xff";
    loop {
        let byte = match random.below(8) {
            0..=2 => EDGES[random.below(EDGES.len())],
            3..=4 => random.between(0x21, 0x7e) as u8,
            5 => random.below(0x20) as u8,
            6 => random.between(0x80, 0xff) as u8,
            _ => random.byte(),
        };
        if !byte.is_ascii_alphanumeric() && !b"+-*".contains(&byte) {
            return byte;
        }
    }
}

/// Puts a sign on a byte that is none.
fn move_one(six: &mut Six, place: usize, random: &mut Random) {
    let mut to = byte(random);
    while six.contains(&to) {
        to = byte(random);
    }
    six[place] = to;
}

fn shuffle(six: &mut Six, random: &mut Random) {
    for place in 1..six.len() {
        six.swap(place, random.below(place + 1));
    }
}

/// The standard signs, these exchanged among themselves, some of them moved, or all.
fn six(random: &mut Random) -> Six {
    let mut six = *SIGNS;
    match random.below(10) {
        0 => {}
        1..=2 => shuffle(&mut six, random),
        3..=5 => {
            for _ in 0..random.between(1, 3) {
                let place = random.below(six.len());
                move_one(&mut six, place, random);
            }
        }
        _ => {
            for place in 0..six.len() {
                move_one(&mut six, place, random);
            }
            shuffle(&mut six, random);
        }
    }
    six
}

fn entries(six: &Six) -> Vec<u8> {
    let mut entries = vec![0; 256];
    for (kind, &sign) in (1..).zip(six) {
        entries[usize::from(sign)] = kind;
    }
    entries
}

/// The entries of signs that are accepted.
pub fn accepted(random: &mut Random) -> Vec<u8> {
    entries(&six(random))
}

/// What each byte of a script becomes.
type Bytes = [u8; 256];

fn same() -> Bytes {
    std::array::from_fn(|byte| byte as u8)
}

/// Has a byte become another, and what became that one become what the byte did.
fn exchange(bytes: &mut Bytes, byte: u8, other: u8) {
    let holder = bytes.iter().position(|&held| held == other);
    bytes.swap(usize::from(byte), holder.expect("each byte is held"));
}

/// The standard signs become these, and what gives way to them becomes standard signs, which are plain now.
fn exchanged(six: &Six) -> Bytes {
    let mut bytes = same();
    for (&standard, &sign) in SIGNS.iter().zip(six) {
        exchange(&mut bytes, standard, sign);
    }
    bytes
}

/// The standard signs become these, and other bytes stay, so that some are signs which were none.
fn left(six: &Six) -> Bytes {
    let mut bytes = same();
    for (&standard, &sign) in SIGNS.iter().zip(six) {
        bytes[usize::from(standard)] = sign;
    }
    bytes
}

/// As exchanged, and letters of names and words become standard signs that are plain now.
fn sown(six: &Six, random: &mut Random) -> Bytes {
    const LETTERS: &[u8] = b"kkkmtxxynop";
    let mut bytes = exchanged(six);
    for &standard in SIGNS.iter().filter(|&standard| !six.contains(standard)) {
        if !random.one_in(3) {
            exchange(&mut bytes, LETTERS[random.below(LETTERS.len())], standard);
        }
    }
    bytes
}

/// Bytes that were written with the standard signs, under others that are accepted, and their entries. Seldom the bytes
/// stay as they were.
pub fn rewritten(text: Vec<u8>, random: &mut Random) -> (Vec<u8>, Vec<u8>) {
    let six = six(random);
    let bytes = match random.below(20) {
        0 => same(),
        1..=5 => left(&six),
        6..=11 => exchanged(&six),
        _ => sown(&six, random),
    };
    let text = text.into_iter().map(|byte| bytes[usize::from(byte)]).collect();
    (text, entries(&six))
}

pub fn written(text: Vec<u8>, random: &mut Random) -> Script {
    let (text, signs) = rewritten(text, random);
    Script::new(text, Some(signs))
}
