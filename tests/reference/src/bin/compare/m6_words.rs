//! Calls of SEQ, SIZE and IF.
use crate::built_ins;
use crate::grower::{Grower, Place, SIGNS};
use crate::random::Random;

/// Bytes of every sort, most of them plain, so that a text which is moved or cut wrongly is another text.
fn varied(random: &mut Random, length: usize) -> Vec<u8> {
    const PLAIN: &[u8] = b"abcdefghijklmnopqrstuvwxyzABCDEFGHIJ0123456789 .-+_|\x00\x7f\x80\xe9\xff";
    const SEPARATING: &[u8] = b",;$~";
    let signs = random.one_in(8);
    let byte = |random: &mut Random| match random.below(6) {
        0 if signs => SEPARATING[random.below(SEPARATING.len())],
        _ => PLAIN[random.below(PLAIN.len())],
    };
    (0..length).map(|_| byte(random)).collect()
}

/// Mostly short; some are longer than all else in a list together.
fn length(random: &mut Random) -> usize {
    match random.below(40) {
        0..=4 => 0,
        5..=19 => random.between(1, 3),
        20..=33 => random.between(4, 14),
        34..=38 => random.between(15, 70),
        _ => random.between(70, 260),
    }
}

/// A text beside another: the same, or with one byte more, fewer or other, or of the same length alone.
fn beside(text: &[u8], random: &mut Random) -> Vec<u8> {
    let mut other = text.to_vec();
    let place = match random.below(3) {
        0 => text.len(),
        1 => text.len().saturating_sub(1),
        _ => random.below(text.len() + 1),
    };
    match random.below(20) {
        0..=9 => {}
        10..=11 => other.insert(place, b'x'),
        12..=13 if !text.is_empty() => drop(other.remove(place.min(text.len() - 1))),
        14..=16 if !text.is_empty() => change(&mut other[place.min(text.len() - 1)], random),
        17 => other = varied(random, text.len()),
        18 => other.reverse(),
        _ => {
            let length = length(random);
            other = varied(random, length);
        }
    }
    other
}

/// To any byte, often by the bit that makes capitals or by the highest; no sign comes of it.
fn change(byte: &mut u8, random: &mut Random) {
    let other = match random.below(3) {
        0 => *byte ^ 0x20,
        1 => *byte ^ 0x80,
        _ => random.byte(),
    };
    *byte = if SIGNS.contains(&other) || other == *byte {
        b'#'
    } else {
        other
    };
}

/// A text as an argument: as it is, in quotes or half in quotes, given by a body or by VAL, or after a definition.
fn written(grower: &mut Grower, text: &[u8]) {
    let (start, end) = text.split_at(text.len() / 2);
    let parts: [&[u8]; 3] = match grower.random.below(12) {
        0 => [b"$VAL,v$DEF,v,<", text, b">;;"],
        1 => [b"$v,$DEF,v,<<", text, b">>;;"],
        2 => [b"$DEF,u,x;<", text, b">"],
        3..=4 => [b"<", text, b">"],
        _ if text.iter().any(|byte| SIGNS.contains(byte)) => [b"<", text, b">"],
        5 => [start, b"<>", end],
        _ => [text, b"", b""],
    };
    grower.text.extend(parts.concat());
}

/// A parameter of the body, where there is one and it is drawn.
fn fetched(grower: &mut Grower, place: Place) -> bool {
    let fetches = place.parameters.unwrap_or(0) > 0 && grower.random.one_in(4);
    if fetches {
        grower.parameter(place);
    }
    fetches
}

/// Surplus parameters at times, and `;`. What was defined in the list is known no more.
fn ends(grower: &mut Grower, mark: usize) {
    let surplus = built_ins::surplus(&mut grower.random);
    grower.put(surplus);
    grower.ends(mark, Vec::new());
}

/// What defines the macro of `tenfold`; it goes with the list.
const TENFOLD: &str = "$DEF,q,<~1~1~1~1~1~1~1~1~1~1>;";

/// A parameter of so many bytes, by a macro that gives ten times its own.
fn tenfold(length: usize) -> String {
    let rest = "y".repeat(length % 10);
    match length / 10 {
        0 => rest,
        tenth => format!("$q,{};{rest}", tenfold(tenth)),
    }
}

/// Two long texts: the same, or unlike in the last byte, in the first, or in length alone, by one or by 256.
fn long_pair(random: &mut Random) -> (String, String) {
    let length = random.between(60, 1_400);
    let bytes = tenfold(length);
    let (left, right) = match random.below(8) {
        0..=3 => (bytes.clone(), bytes),
        4 => (format!("{bytes}x"), format!("{bytes}z")),
        5 => (format!("x{bytes}"), format!("z{bytes}")),
        6 => (bytes, tenfold(length + 256)),
        _ => (bytes, tenfold(length + 1)),
    };
    if random.one_in(2) {
        (left, right)
    } else {
        (right, left)
    }
}

/// Two texts that might pass for the same.
fn near_pair(random: &mut Random) -> [&'static str; 2] {
    const NEAR: [[&str; 2]; 8] = [
        ["1", "01"],
        ["1", "+1"],
        ["0", "-0"],
        ["ab", "AB"],
        ["x", "x "],
        ["", "0"],
        ["\0", ""],
        ["<a>", "<<a>>"],
    ];
    let [left, right] = NEAR[random.below(NEAR.len())];
    if random.one_in(2) {
        [left, right]
    } else {
        [right, left]
    }
}

/// Two parameters, of which a body may fetch one or both.
fn pair(grower: &mut Grower, place: Place) {
    let length = length(&mut grower.random);
    let text = varied(&mut grower.random, length);
    let other = beside(&text, &mut grower.random);
    if !fetched(grower, place) {
        written(grower, &text);
    }
    grower.put(",");
    if !fetched(grower, place) {
        written(grower, &other);
    }
}

/// SEQ, which gives 1 about as often as 0.
pub fn compared(grower: &mut Grower, place: Place) {
    let mark = grower.known.len();
    grower.put("$SEQ,");
    match grower.random.below(20) {
        0 => {
            let (left, right) = long_pair(&mut grower.random);
            grower.put(&format!("{TENFOLD}{left},{right}"));
        }
        1 => {
            let pair = near_pair(&mut grower.random);
            grower.put(&pair.join(","));
        }
        _ => pair(grower, place),
    }
    ends(grower, mark);
}

/// A call by the name that SEQ gives, as in case i.
pub fn branched(grower: &mut Grower, place: Place) {
    grower.put("$");
    compared(grower, place);
    grower.put(",$DEF,1,<same>;$DEF,0,<~0 other>;;");
}

/// A length at which the decimal changes, or any.
fn length_of_note(random: &mut Random) -> usize {
    match random.below(32) {
        0..=21 => random.between(0, 12),
        22..=25 => random.between(13, 99),
        26..=28 => random.between(99, 101),
        29 => random.between(255, 256),
        30 => random.between(999, 1_001),
        _ => random.between(100, 2_000),
    }
}

/// SIZE of a text of such a length, of a parameter, or of anything.
pub fn measured(grower: &mut Grower, place: Place) {
    let mark = grower.known.len();
    grower.put("$SIZE,");
    let length = length_of_note(&mut grower.random);
    match grower.random.below(4) {
        _ if fetched(grower, place) => {}
        0 => grower.argument(place),
        _ if length > 101 => {
            grower.put(&format!("{TENFOLD}{}", tenfold(length)));
        }
        _ => {
            let text = varied(&mut grower.random, length);
            written(grower, &text);
        }
    }
    ends(grower, mark);
}

/// Firsts that are `1`, and such as are not, many of them nearly.
const HOLDS: [&str; 10] = [
    "1",
    "1",
    "1",
    "1",
    "<1>",
    "1<>",
    "$SEQ,x,x;",
    "$SIZE,x;",
    "$-,3,2;",
    "$DEF,u,1;1",
];
const NOT: [&str; 25] = [
    "0",
    "0",
    "0",
    "",
    "",
    "01",
    "+1",
    "1 ",
    " 1",
    "11",
    "10",
    "-1",
    "1.",
    "l",
    "I",
    "2",
    "x",
    "a",
    "<<1>>",
    "<1,>",
    "\x01",
    "1\0",
    "$SEQ,x,y;",
    "$SIZE,;",
    "$SIZE,xx;",
];

/// A first that holds, or one that does not.
fn condition(grower: &mut Grower, holds: bool) {
    if !holds && grower.random.one_in(40) {
        // `1` with the highest bit.
        return grower.text.push(0xb1);
    }
    let word = grower.random.pick(if holds { &HOLDS[..] } else { &NOT[..] });
    grower.put(word);
}

/// A second, of any length.
fn second(grower: &mut Grower, place: Place, taken: bool, pairs: usize) {
    let short = pairs > 4 && !taken;
    match grower.random.below(12) {
        _ if fetched(grower, place) => {}
        0 => {}
        1 => grower.put("1"),
        2 if !short => grower.argument(place),
        _ => {
            let most = if short { 6 } else { usize::MAX };
            let length = length(&mut grower.random).min(most);
            let text = varied(&mut grower.random, length);
            written(grower, &text);
        }
    }
}

/// How many pairs IF has, and which is the first to hold, if one does: the first, the last, or any.
fn pairs(random: &mut Random) -> (usize, Option<usize>) {
    let pairs = match random.below(200) {
        0..=1 => random.between(126, 130),
        2..=14 => random.between(10, 20),
        15..=24 => 20,
        25..=69 => random.between(4, 9),
        _ => random.between(1, 3),
    };
    let taken = match random.below(9) {
        0..=1 => None,
        2..=3 => Some(0),
        4..=5 => Some(pairs - 1),
        _ => Some(random.below(pairs)),
    };
    (pairs, taken)
}

/// IF with up to forty parameters, seldom with about 256. Pairs after the one that is taken may hold too, and the last
/// parameter may be unpaired.
pub fn chosen(grower: &mut Grower, place: Place) {
    let (pairs, taken) = pairs(&mut grower.random);
    let mark = grower.known.len();
    grower.put("$IF");
    for pair in 0..pairs {
        let holds = match taken {
            Some(taken) if pair == taken => true,
            Some(taken) if pair > taken => grower.random.one_in(2),
            _ => false,
        };
        grower.put(",");
        condition(grower, holds);
        grower.put(",");
        second(grower, place, taken == Some(pair), pairs);
    }
    if grower.random.one_in(4) {
        let holds = grower.random.one_in(2);
        grower.put(",");
        condition(grower, holds);
    }
    grower.ends(mark, Vec::new());
}

/// A definition of one of the three names, within a list that goes or to the end, and calls of it.
pub fn hidden(grower: &mut Grower, _: Place) {
    const CALLS: [&str; 4] = [
        "$W,1,x;",
        "$W,ab,ab;$W,1,y;",
        "$VAL,W;$W,1,2;",
        "$UPDATE,W,<~1>;$VAL,W;",
    ];
    let word = grower.random.pick(&built_ins::FROM_M6);
    let call = grower.random.pick(&CALLS).replace('W', word);
    let around = grower.random.pick(&["$IF,1,", "$SEQ,,", "$SIZE,", "$DEF,u,", ""]);
    let end = if around.is_empty() { "" } else { ";" };
    grower.put(&format!("{around}$DEF,{word},<[~2~1]>;{call}{end}"));
    grower.put(&format!("${word},1,1;"));
}
