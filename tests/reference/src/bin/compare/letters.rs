//! Parameters past nine, which letters fetch.
use crate::grower::{Grower, Place};
use crate::random::Random;

/// The last parameter that a letter fetches.
const LAST: usize = 35;

/// What stands after `~` for a parameter.
pub fn digit_or_letter(parameter: usize) -> char {
    char::from_digit(parameter as u32, LAST as u32 + 1).expect("a parameter up to the last")
}

/// How many parameters a macro of many fetches; both ends of the alphabet more often.
pub fn many(random: &mut Random) -> usize {
    match random.below(6) {
        0 => 10,
        1..=2 => LAST,
        _ => random.between(10, LAST),
    }
}

/// One of so many parameters. Of many it is mostly one past nine, the first and the last of these more often.
pub fn one_of(parameters: usize, random: &mut Random) -> usize {
    match random.below(8) {
        0..=1 if parameters > 9 => 10,
        2..=4 if parameters > 9 => parameters,
        5..=6 if parameters > 9 => random.between(10, parameters),
        _ => random.between(1, parameters.max(1)),
    }
}

/// A parameter fetched: collected or not, by a `~` and a letter that were put together, and by what only looks like it.
fn fetched(grower: &mut Grower, parameters: usize) {
    let byte = digit_or_letter(one_of(parameters, &mut grower.random));
    let piece = match grower.random.below(9) {
        0..=1 => format!("~><{byte}"),
        2..=3 => format!("$v,~{byte},$DEF,v,<[~1]>;;"),
        4 => format!("~10<~>{byte}<~{byte}>"),
        _ => format!("~{byte}"),
    };
    grower.put(&piece);
}

/// Words, and what shows a parameter that is scanned again.
fn supplied(grower: &mut Grower, count: usize) {
    const ARGUMENTS: [&str; 9] = ["x", "A", "7", "no", "", "<,>", "<~z>", "<$w;>", "$+,1,2;"];
    for _ in 0..count {
        let argument = grower.random.pick(&ARGUMENTS);
        grower.put(",");
        grower.put(argument);
    }
}

/// A call of the macro, mostly with all that it fetches. The first nine are at times those of a body's commas.
fn called(grower: &mut Grower, parameters: usize) {
    let least = if grower.random.one_in(12) { 9 } else { parameters };
    let count = grower.random.between(least, LAST + 1);
    grower.put("$w");
    if grower.random.one_in(4) {
        grower.put(",$v,$DEF,v,<1,2,3,4,5,6,7,8,9>;;");
        supplied(grower, count - 9);
    } else {
        supplied(grower, count);
    }
    grower.put(";");
}

/// A macro of many parameters, at times updated, and calls of it.
pub fn macro_of_many(grower: &mut Grower, _: Place) {
    let parameters = many(&mut grower.random);
    grower.put("$DEF,w,<");
    for _ in 0..grower.random.between(1, 4) {
        fetched(grower, parameters);
    }
    grower.put(">;");
    called(grower, parameters);
    if grower.random.one_in(4) {
        grower.put("$UPDATE,w,<~a>;");
        called(grower, parameters);
    }
}

/// A call that supplies all parameters before the one that a letter fetches.
pub fn one_short(random: &mut Random) -> Vec<u8> {
    let parameter = many(random);
    let (byte, supplied) = (digit_or_letter(parameter), ",x".repeat(parameter - 1));
    format!("$DEF,z,<~{byte}>;$z{supplied};").into_bytes()
}
