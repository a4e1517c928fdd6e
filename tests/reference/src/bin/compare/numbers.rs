//! Numbers in every spelling, and calls of the arithmetic whose results are in range.
use crate::built_ins::{surplus, ARITHMETIC};
use crate::menu_wheels;
use crate::random::Random;

pub const SMALLEST: i64 = -2_147_483_648;
pub const LARGEST: i64 = 2_147_483_647;

/// A text that stands for a number, and the number.
pub struct Number {
    pub text: Vec<u8>,
    pub value: i64,
}

pub fn in_range(value: i64) -> bool {
    (SMALLEST..=LARGEST).contains(&value)
}

/// An end of the range, or a number beside it.
pub fn about_an_end(random: &mut Random) -> i64 {
    let beside = random.between(0, 2) as i64;
    if random.one_in(2) {
        SMALLEST + beside
    } else {
        LARGEST - beside
    }
}

pub fn value(random: &mut Random) -> i64 {
    match random.below(10) {
        0..=5 => random.between(0, 24) as i64 - 9,
        6 => random.between(0, 200_000) as i64 - 100_000,
        7..=8 => about_an_end(random),
        _ => i64::from(random.next() as i32),
    }
}

/// A value with a sign where one may stand, and some zeros before it.
pub fn spelt(value: i64, random: &mut Random) -> Vec<u8> {
    let sign = if value < 0 || value == 0 && random.one_in(8) {
        "-"
    } else if random.one_in(6) {
        "+"
    } else {
        ""
    };
    let zeros = if random.one_in(8) { random.between(1, 14) } else { 0 };
    format!("{sign}{}{}", "0".repeat(zeros), value.abs()).into_bytes()
}

pub fn literal(random: &mut Random) -> Number {
    let value = value(random);
    Number {
        text: spelt(value, random),
        value,
    }
}

/// What a call gives; none where it is refused.
pub fn result(operation: &str, left: i64, right: i64) -> Option<i64> {
    let value = match operation {
        "+" => left + right,
        "-" => left - right,
        "*" => left * right,
        "Quot" => left.checked_div_euclid(right)?,
        _ => left.checked_rem_euclid(right)?,
    };
    Some(value).filter(|&value| in_range(value))
}

pub fn call(operation: &str, left: &[u8], right: &[u8], random: &mut Random) -> Vec<u8> {
    let surplus = surplus(random).as_bytes();
    [b"$", operation.as_bytes(), b",", left, b",", right, surplus, b";"].concat()
}

fn operand(random: &mut Random, depth: usize) -> Number {
    match random.below(8) {
        0..=1 if depth > 0 => computed(random, depth - 1),
        2 if depth > 0 => menu_wheels::divided(random),
        _ => literal(random),
    }
}

/// A call of the arithmetic, its operands calls too down to the depth.
pub fn computed(random: &mut Random, depth: usize) -> Number {
    let left = operand(random, depth);
    for _ in 0..4 {
        let right = operand(random, depth);
        let operation = random.pick(&ARITHMETIC);
        if let Some(value) = result(operation, left.value, right.value) {
            return Number {
                text: call(operation, &left.text, &right.text, random),
                value,
            };
        }
    }
    Number {
        text: call("Rem", &left.text, b"-1", random),
        value: 0,
    }
}

/// A call whose operands are numbers and whose result is out of range.
pub fn exceeding(random: &mut Random) -> Vec<u8> {
    let distance = random.between(1, 40) as i64;
    let (operation, left, right) = match random.below(6) {
        0 => ("+", LARGEST + 1 - distance, distance),
        1 => ("+", -distance, SMALLEST - 1 + distance),
        2 => ("-", SMALLEST - 1 + distance, distance),
        3 => ("-", distance - 1, SMALLEST),
        4 => ("*", 46_340 + distance, -46_341 - distance),
        _ => return menu_wheels::out_of_range(random),
    };
    let (left, right) = (spelt(left, random), spelt(right, random));
    call(operation, &left, &right, random)
}

/// A text that is no number in range.
pub fn wrong(random: &mut Random) -> Vec<u8> {
    const WRONG: [&str; 15] = [
        "", "+", "-", "--1", "+-1", "1-", "1+2", " 1", "1 ", "1a", "x", "1.0", "/", ":", "0x1",
    ];
    match random.below(5) {
        0 => spelt(LARGEST + random.between(1, 3) as i64, random),
        1 => spelt(SMALLEST - random.between(1, 3) as i64, random),
        2 => spelt(4_294_967_296 + random.between(0, 9) as i64, random),
        3 => spelt(i64::MAX - random.between(0, 9) as i64, random),
        _ => random.pick(&WRONG).as_bytes().to_vec(),
    }
}
