//! Quot and Rem where request Seven shows, with dividends about the multiples of their divisor, of either sign, and at
//! both ends of the range; and wheels.
use crate::grower::{grown, Grower, Place};
use crate::numbers::{self, Number, LARGEST, SMALLEST};
use crate::random::Random;

const OPERATIONS: [&str; 2] = ["Quot", "Rem"];

/// A divisor of either sign: 1, 2, 8, a small one, one beside a power of two or about an end of the range, or any.
fn divisor(random: &mut Random) -> i64 {
    let size = match random.below(16) {
        0 => 1,
        1 => 2,
        2..=4 => 8,
        5..=9 => random.between(1, 24),
        10..=11 => (1 << random.between(2, 30)) + random.between(0, 2) - 1,
        12 => random.between(25, 100_000),
        13..=14 => return numbers::about_an_end(random),
        _ => random.between(1, LARGEST as usize),
    };
    let size = size as i64;
    if random.one_in(2) {
        size
    } else {
        -size
    }
}

/// So many times the divisor, or a number beside that.
fn about_a_multiple(divisor: i64, most: i64, random: &mut Random) -> i64 {
    let times = random.between(0, most as usize) as i64;
    divisor.abs() * times + random.between(0, 2) as i64 - 1
}

/// A dividend for a divisor, in three of four cases a negative one, as the change is there alone.
fn dividend(divisor: i64, random: &mut Random) -> i64 {
    let size = divisor.abs();
    let drawn = match random.below(12) {
        0..=4 => about_a_multiple(divisor, 12, random),
        5 => about_a_multiple(divisor, LARGEST / size, random),
        6..=8 => random.between(0, size as usize) as i64,
        9 => numbers::about_an_end(random),
        _ => numbers::value(random),
    };
    let signed = if random.one_in(4) { drawn.abs() } else { -drawn.abs() };
    signed.clamp(SMALLEST, LARGEST)
}

/// Dividend and divisor; at times both are at an end of the range or beside 0.
fn pair(random: &mut Random) -> (i64, i64) {
    const AT_ENDS: [(i64, i64); 16] = [
        (SMALLEST, -1),
        (SMALLEST, -1),
        (SMALLEST, -1),
        (-LARGEST, -1),
        (-LARGEST, -1),
        (LARGEST, -1),
        (SMALLEST, 1),
        (SMALLEST, 1),
        (SMALLEST, SMALLEST),
        (SMALLEST, LARGEST),
        (SMALLEST, -LARGEST),
        (-LARGEST, SMALLEST),
        (-1, SMALLEST),
        (-1, LARGEST),
        (LARGEST, SMALLEST),
        (1, SMALLEST),
    ];
    if random.one_in(10) {
        return AT_ENDS[random.below(AT_ENDS.len())];
    }
    let divisor = divisor(random);
    (dividend(divisor, random), divisor)
}

/// An operand as it is, or given by a call.
fn written(value: i64, random: &mut Random) -> Vec<u8> {
    if random.one_in(8) && numbers::in_range(value + 1) {
        let one_more = numbers::spelt(value + 1, random);
        return numbers::call("-", &one_more, b"1", random);
    }
    numbers::spelt(value, random)
}

/// A call of Quot or Rem. The one quotient that is out of range has the remainder 0.
pub fn divided(random: &mut Random) -> Number {
    let (dividend, divisor) = pair(random);
    let (left, right) = (written(dividend, random), written(divisor, random));
    let operation = random.pick(&OPERATIONS);
    let (operation, value) = match numbers::result(operation, dividend, divisor) {
        Some(value) => (operation, value),
        None => ("Rem", 0),
    };
    Number {
        text: numbers::call(operation, &left, &right, random),
        value,
    }
}

pub fn division(grower: &mut Grower, _: Place) {
    let call = divided(&mut grower.random).text;
    grower.text.extend(call);
}

/// How many entries a menu has, most often eight, and an entry of it, often one at an end.
fn menu(random: &mut Random) -> (usize, usize) {
    let entries = match random.below(8) {
        0..=2 => 8,
        3..=6 => random.between(1, 12),
        _ => random.between(13, 1_000),
    };
    let entry = match random.below(4) {
        0..=1 => 0,
        2 => entries - 1,
        _ => random.below(entries),
    };
    (entries, entry)
}

/// One step of a wheel, up more often than down; the divisor's size alone counts.
fn step(random: &mut Random, entry: &str, entries: usize) -> String {
    let (way, sign) = (random.pick(&["-", "-", "+"]), random.pick(&["", "", "", "-"]));
    format!("$Rem,${way},{entry},1;,{sign}{entries};")
}

/// A step, steps by a macro, a place that a macro moves by UPDATE, or a loop that moves it.
fn turned(random: &mut Random) -> String {
    let (entries, entry) = menu(random);
    let width = (entries - 1).to_string().len();
    let place = format!("$DEF,o,{entry:0width$};");
    let moved = format!("$UPDATE,o,{};", step(random, "$o;", entries));
    let turns = random.between(1, 5);
    match random.below(8) {
        0..=3 => step(random, &entry.to_string(), entries),
        4 => {
            let step = step(random, "~1", entries);
            let (calls, ends) = ("$u,".repeat(turns), ";".repeat(turns));
            format!("$DEF,u,<{step}>;{calls}{entry}{ends}")
        }
        5..=6 => format!("{place}$DEF,u,<{moved}$VAL,o;>;{}", "$u;".repeat(turns)),
        _ => format!("{place}$DEF,z,;$DEF,f,<{moved}$o;$$IF,$SEQ,~1,1;,z,1,f;,$-,~1,1;;>;$f,{turns};"),
    }
}

pub fn wheel(grower: &mut Grower, _: Place) {
    let wheel = turned(&mut grower.random);
    grower.put(&wheel);
}

/// 23 of any dividend, mostly of a negative one or of 0.
pub fn by_zero(random: &mut Random) -> Vec<u8> {
    let operation = random.pick(&OPERATIONS);
    let dividend = match random.below(8) {
        0 => 0,
        1 => SMALLEST,
        2..=4 => dividend(8, random),
        _ => numbers::value(random),
    };
    let (left, zero) = (numbers::spelt(dividend, random), numbers::spelt(0, random));
    numbers::call(operation, &left, &zero, random)
}

/// 22 of what is no number, though the divisor is 0.
fn wrong_by_zero(random: &mut Random) -> Vec<u8> {
    let operation = random.pick(&OPERATIONS);
    let (wrong, zero) = (numbers::wrong(random), numbers::spelt(0, random));
    numbers::call(operation, &wrong, &zero, random)
}

/// 24 of the one quotient that is out of range.
pub fn out_of_range(random: &mut Random) -> Vec<u8> {
    let (left, right) = (written(SMALLEST, random), written(-1, random));
    numbers::call("Quot", &left, &right, random)
}

/// A script with a division at its end, so that what is lent is often too little for its result: written, collected in
/// one list or several, in the text or in a body.
pub fn script(random: &mut Random) -> Vec<u8> {
    const AROUND: [[&str; 2]; 11] = [
        ["", ""],
        ["x", "$zz;"],
        ["$DEF,i,<[~1]>;$i,", ";"],
        ["$DEF,i,<~1>;$i,$i,$i,x", ";;;"],
        ["$SIZE,", ";"],
        ["$DEF,m,<y>", ";$m;"],
        ["$$SIZE,", ";,$DEF,1,<one>;$DEF,2,<two>;;"],
        ["$DEF,z,<", ">;$z;"],
        ["$DEF,z,<$SIZE,", ";>;$z;"],
        ["$DEF,i,<~1>;$DEF,z,<$i,", ";>;$z;"],
        ["$DEF,i,<~1>;$DEF,z,<x", ">;$i,$z;;"],
    ];
    let before = if random.one_in(4) {
        grown(random, 4, None)
    } else {
        Vec::new()
    };
    let call = match random.below(20) {
        0 => by_zero(random),
        1 => wrong_by_zero(random),
        2..=3 => out_of_range(random),
        4..=5 => turned(random).into_bytes(),
        _ => divided(random).text,
    };
    let [start, end] = AROUND[random.below(AROUND.len())].map(str::as_bytes);
    [&before, start, &call, end].concat()
}
