//! Pieces that write by one rule beside another, where no call collects what they give.
use crate::grower::{Grower, Place};

/// What a body writes by: bytes copied, in quotes or not, fetched, and given by built-ins.
const PIECES: [&str; 16] = [
    "b",
    ",",
    "(x)",
    "<q,>",
    "<<q>~1>",
    "~1",
    "~1",
    "~0",
    "$VAL,~0;",
    "$VAL,u;",
    "$SIZE,~1;",
    "$SEQ,~1,~0;",
    "$IF,1,~1;",
    "$+,99,1;",
    "$Rem,-1,8;",
    "$DEF,v,<w,>;$v;$VAL,v;",
];

/// What was given into an argument is fetched from there.
const ARGUMENTS: [&str; 7] = ["cd", "c", "", "<,>", "$VAL,u;", "$SIZE,xx;e", "$IF,1,fg;"];

/// A macro whose body writes by several rules and a call of it, in the body of another or of a third at times.
pub fn rules(grower: &mut Grower, _: Place) {
    grower.put("$DEF,u,<");
    for _ in 0..grower.random.between(1, 5) {
        let piece = grower.random.pick(&PIECES);
        grower.put(piece);
    }
    grower.put(">;");
    let argument = grower.random.pick(&ARGUMENTS);
    let call = match grower.random.below(8) {
        0..=2 => format!("$DEF,o,<($u,~1~0;)>;$o,{argument};"),
        3 => format!("$DEF,o,<($u,~1~0;)>;$DEF,q,<,$o,~1;>;$q,{argument};"),
        4 => format!("$u,{argument};,;~$u,;"),
        _ => format!("$u,{argument};"),
    };
    grower.put(&call);
}

/// A definition that hides VAL or another built-in until its own call ends, in another's body at times: what its body
/// writes is copied and fetched.
pub fn hidden(grower: &mut Grower, _: Place) {
    const NAMES: [&str; 6] = ["VAL", "VAL", "VAL", "SIZE", "IF", "+"];
    const BODIES: [&str; 4] = ["(~1)", "~1,~0", "x~1~1", "<v>~1$DEF,v,~1;$v;"];
    let (name, body) = (grower.random.pick(&NAMES), grower.random.pick(&BODIES));
    let argument = grower.random.pick(&["xy", "1", "$VAL,v$DEF,v,ab;;"]);
    let call = format!("${name},{argument},$DEF,{name},<{body}>;;");
    let call = match grower.random.below(3) {
        0 => format!("$DEF,o,<{call}>;$o;"),
        _ => call,
    };
    grower.put(&call);
}
