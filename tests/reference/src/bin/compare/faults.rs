//! Pieces of script that end a run at a chosen outcome, where they are reached.
use crate::built_ins;
use crate::groups;
use crate::grower::Place;
use crate::letters;
use crate::locked;
use crate::menu_wheels;
use crate::nameless;
use crate::numbers;
use crate::random::Random;

/// The outcomes that a planted piece leads to. 12, 19, 33, 15, 36 and 13 have more pieces than the others, and stand here
/// twice and more often.
pub const PLANTED: [u64; 28] = [
    1, 10, 11, 12, 12, 13, 13, 13, 13, 14, 15, 15, 15, 16, 17, 18, 19, 19, 20, 21, 22, 23, 24, 33, 33, 36, 36, 36,
];

/// A piece for a fault of the text, or for the end at a bare `>`.
pub fn planted(outcome: u64, place: Place, random: &mut Random) -> Vec<u8> {
    let in_body = place.parameters.is_some() && random.one_in(2);
    match outcome {
        1 => b">".to_vec(),
        10 | 12 | 14 => in_some_body(outcome, in_body, random),
        11 => text(random.pick(&["$a,~1;", "$~;", "$a$DEF,a,x;~", "$DEF,z,a,~1~2;"])),
        13 => missing(in_body, random),
        15 => not_defined(random),
        16 => text(random.pick(&["$a>", "$DEF,a,x>y;", "$a,$b,<c>>;"])),
        17 => text(random.pick(&["<", "$a,<", "<<a>", "$DEF,a,<<x>;"])),
        18 => text(random.pick(&["$", "$a,b", "$DEF,k,$a,<c>", "$$"])),
        19 => built_in(random),
        20 => being_read(random),
        21 => longer(random),
        22 => not_a_number(random),
        23 => menu_wheels::by_zero(random),
        33 => nameless::refused(random),
        36 => locked::refused(random),
        _ => numbers::exceeding(random),
    }
}

fn text(piece: &str) -> Vec<u8> {
    piece.as_bytes().to_vec()
}

/// The piece alone where a body is being written, else a macro of it and a call.
fn in_some_body(outcome: u64, in_body: bool, random: &mut Random) -> Vec<u8> {
    let piece = match outcome {
        10 => random.pick(&["x;", ";", "$DEF,m,z;;", "<;>;"]),
        12 => fetches_nothing(random),
        _ => random.pick(&["$", "$j", "$a,b", "$DEF,a,<x;>", "$k,$VAL,a"]),
    };
    if in_body {
        return text(piece);
    }
    let call = random.pick(&["$z;", "$z,1,2;", "$VAL,$z;;", "$DEF,y,<$z;>;$y;"]);
    format!("$DEF,z,<{piece}>;{call}").into_bytes()
}

/// A `~` at the end of a body, or before a byte that is neither digit nor letter `a` to `z`: signs, and the bytes just
/// beside those that fetch, the neighbours of the letters more often.
fn fetches_nothing(random: &mut Random) -> &'static str {
    const BEFORE_A_BYTE: [&str; 22] = [
        "~`", "~`", "~`", "~{", "~{", "~{", "~/", "~:", "~A", "~Z", "~@", "~[", "~,", "~;", "~$a;", "~<1>", "~<a>",
        "~~1", "~~a", "$a,~-1;", "~\0", "~é",
    ];
    if random.one_in(3) {
        "~"
    } else {
        random.pick(&BEFORE_A_BYTE)
    }
}

fn missing(in_body: bool, random: &mut Random) -> Vec<u8> {
    let piece = random.pick(&[
        "$DEF,z,<~2>;$z,1;",
        "$DEF,z,<x~1>;$z;",
        "$DEF,z,<~9>;$z,1,2,3,4,5,6,7,8;",
    ]);
    let built_in = built_ins::any(random);
    match random.below(9) {
        8 => locked::alone(random).into_bytes(),
        3..=5 if in_body => text(random.pick(&["~9", "~a", "~z"])),
        0 => text(piece),
        5 => letters::one_short(random),
        6..=7 => nameless::alone(random),
        1..=2 if !built_ins::OF_ONE.contains(&built_in) => format!("${built_in},1;").into_bytes(),
        3 => format!("${built_in}<>;").into_bytes(),
        _ => format!("${built_in};").into_bytes(),
    }
}

/// Nearly half of the names are empty.
fn not_defined(random: &mut Random) -> Vec<u8> {
    const NAMED: [&str; 11] = [
        "$zz;",
        "$VAL,zz;",
        "$UPDATE,zz,x;",
        "$DEFF,a,b;",
        "$<a ;>;",
        "$k$DEF,kk,;,1;",
        "$IFF,1,a;",
        "$If,1,a;",
        "$SE,a,a;",
        "$SIZ,a;",
        "$SIZES,a;",
    ];
    match random.below(10) {
        0..=3 => nameless::looked_up(random),
        4 => locked::not_defined(random).into_bytes(),
        5 => groups::not_defined(random),
        _ => text(random.pick(&NAMED)),
    }
}

/// At times after a LOCK.
fn built_in(random: &mut Random) -> Vec<u8> {
    let before = random.pick(&["", "", "", "$DEF,s,1;$LOCK,s;"]);
    let built_in = if random.one_in(6) {
        "LOCK"
    } else {
        built_ins::any(random)
    };
    match random.below(4) {
        0 => format!("{before}$UPDATE,{built_in},x;").into_bytes(),
        1 => format!("{before}$UPDATE,{built_in},;").into_bytes(),
        2 => format!("{before}$LOCK,{built_in};").into_bytes(),
        _ => format!("{before}$VAL,{built_in};").into_bytes(),
    }
}

fn being_read(random: &mut Random) -> Vec<u8> {
    text(random.pick(&[
        "$DEF,z,<x$UPDATE,z,1;>;$z;",
        "$DEF,z,<$y;>;$DEF,y,<$UPDATE,z,;>;$z;",
        "$DEF,z,<$y,$UPDATE,z,1;;>;$z;",
        "$DEF,z,<$~1;>;$DEF,y,<$UPDATE,z,x;>;$z,y;",
        "$z,$DEF,z,<$UPDATE,~0,~0;>;;",
        "$DEF,z,<$UPDATE,z,$VAL,z;$VAL,z;;>;$z;",
    ]))
}

fn longer(random: &mut Random) -> Vec<u8> {
    text(random.pick(&[
        "$DEF,z,;$UPDATE,z,x;",
        "$DEF,z,ab;$UPDATE,z,c;$UPDATE,z,abc;",
        "$DEF,z,<~1>;$UPDATE,z,<<a>>;",
        "$DEF,z,<$UPDATE,y,~1;>;$DEF,y,x;$z,y;$z,xy;",
        "$UPDATE,z,abc$DEF,z,ab;;",
    ]))
}

/// Also with a divisor zero, and with both operands wrong.
fn not_a_number(random: &mut Random) -> Vec<u8> {
    let operation = random.pick(&built_ins::ARITHMETIC);
    let number = numbers::literal(random).text;
    let wrong = numbers::wrong(random);
    let (left, right) = match random.below(4) {
        0 => (wrong, number),
        1 => (number, wrong),
        2 => (wrong, numbers::spelt(0, random)),
        _ => (wrong, numbers::wrong(random)),
    };
    numbers::call(operation, &left, &right, random)
}
