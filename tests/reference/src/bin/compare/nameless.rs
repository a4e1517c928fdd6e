//! Empty names: at DEF, which turns them away, and where they are looked up; and what is nearly one.
use crate::built_ins;
use crate::grower::{Grower, Place, SIGNS};
use crate::random::Random;

/// What comes to nothing as an argument: not written, quotes alone, or given by a body, a fetch in it or a built-in.
fn nothing(random: &mut Random) -> &'static str {
    const NOTHING: [&str; 16] = [
        "",
        "",
        "",
        "",
        "<>",
        "<><>",
        "$v,$DEF,v,;;",
        "$v,,$DEF,v,<~1>;;",
        "<>$v,x,$DEF,v,<$IF,0,~1;>;;",
        "$VAL,v$DEF,v,;;",
        "$UPDATE,v$DEF,v,x;,;",
        "$DEF,u,x;",
        "$DEF,u,x;$DEF,v,;$v;",
        "$IF,0,x;",
        "$IF,1,;",
        "$IF,,x,01,y;<>",
    ];
    random.pick(&NOTHING)
}

/// A piece about a name, where it stands: alone, in a list, in a body, or in a body that fetches it.
fn placed(random: &mut Random, piece: fn(&str, &mut Random) -> String) -> Vec<u8> {
    const AROUND: [&str; 8] = [
        "$a,",
        "$",
        "$VAL,a",
        "$UPDATE,a,",
        "$DEF,",
        "$DEF,y,",
        "$SEQ,x,",
        "$IF,1,",
    ];
    let (name, around) = (nothing(random), random.pick(&AROUND));
    let script = match random.below(16) {
        0..=5 => piece(name, random),
        6..=7 => format!("{around}{};", piece(name, random)),
        8..=9 => format!("$DEF,z,<x{}>;$z;", piece(name, random)),
        10 => format!("$DEF,z,<{around}{};>;$z;", piece(name, random)),
        11 => format!("$DEF,z,<{}>;{around}$z;;", piece(name, random)),
        12..=13 => format!("$DEF,z,<{}>;$z,{name};", piece("~1", random)),
        14 => format!("$z,1,{name},$DEF,z,<y{}>;;", piece("~2", random)),
        _ => format!("$DEF,z,<{}>;$DEF,y,<$z,~1;>;$y,{name};", piece("~1", random)),
    };
    script.into_bytes()
}

/// A value, in every other case so long that the charge is mostly highest at its DEF.
fn value(random: &mut Random) -> String {
    const VALUES: [&str; 8] = ["x", "", "no", "<~1>", "<$a;>", "<,>", "$+,1,2;", "$DEF,n,y;1"];
    match random.below(2) {
        0 => "y".repeat(random.between(60, 400)),
        _ => random.pick(&VALUES).to_string(),
    }
}

/// DEF of such a name, with its parameters as they are, after a definition in its list, or out of a body.
fn definition(name: &str, random: &mut Random) -> String {
    let (value, surplus) = (value(random), built_ins::surplus(random));
    match random.below(12) {
        0 => format!("$DEF,{name}$DEF,m,z;,{value}{surplus};"),
        1 => format!("$DEF,p,<{name},x>;$DEF,$p,,;,{value};"),
        2 => format!("$DEF,p,<,{name},>;$DEF$p,,;{value};"),
        3 => format!("$DEF,p,<,{value}>;$DEF,$p;;"),
        4 => format!("$$p,$DEF,p,<DEF>;;,{name},{value}{surplus};"),
        _ => format!("$DEF,{name},{value}{surplus};"),
    }
}

/// A piece that comes to 33.
pub fn refused(random: &mut Random) -> Vec<u8> {
    placed(random, definition)
}

/// DEF with such a name alone, at times UPDATE, or DEF with none: 13.
pub fn alone(random: &mut Random) -> Vec<u8> {
    placed(random, |name, random| match random.below(6) {
        0 => "$DEF;".to_string(),
        1..=2 => format!("$UPDATE,{name};"),
        _ => format!("$DEF,{name};"),
    })
}

/// Such a name looked up by a call, by VAL, by LOCK or by UPDATE: 15.
pub fn looked_up(random: &mut Random) -> Vec<u8> {
    placed(random, |name, random| match random.below(10) {
        0..=2 => format!("${name}{};", random.pick(&["", ",", ",x"])),
        3..=5 => format!("$VAL,{name}{};", built_ins::surplus(random)),
        6 => format!("$LOCK,{name}{};", built_ins::surplus(random)),
        _ => format!("$UPDATE,{name},{};", random.pick(&["", "x"])),
    })
}

/// A name as it is written: often of one byte that might pass for none, or of a sign, seldom of some 256 bytes.
fn name(random: &mut Random) -> Vec<u8> {
    const HARDLY: [&[u8]; 9] = [b"\0", b" ", b"\n", b"\t", b"\r", b"0", b"\x7f", b"\x80", b"\xff"];
    const SIGN: [&[u8]; 4] = [b"<$>", b"<,>", b"<;>", b"<~>"];
    match random.below(12) {
        0..=5 => random.pick(&HARDLY).to_vec(),
        6..=7 => random.pick(&SIGN).to_vec(),
        8..=9 => b"y".repeat(random.between(255, 257)),
        _ => vec![Some(random.byte()).filter(|byte| !SIGNS.contains(byte)).unwrap_or(b'_')],
    }
}

/// Such a name is defined, within a list that goes or to the end, and called.
pub fn barely_named(grower: &mut Grower, _: Place) {
    let name = name(&mut grower.random);
    let (around, end) = *grower.random.pick(&[&("$IF,1,", ";"), &("", "")]);
    grower.put(around);
    for part in [&b"$DEF,"[..], &name, b",<[~0]>;$", &name, b";$VAL,", &name, b";"] {
        grower.text.extend(part);
    }
    grower.put(end);
}

/// A definition hides DEF, within a list that goes, and is called with an empty parameter.
pub fn hidden(grower: &mut Grower, _: Place) {
    let (name, other) = (nothing(&mut grower.random), nothing(&mut grower.random));
    let call = match grower.random.below(3) {
        0 => format!("$DEF,{name},x,$DEF,DEF,<[~1|~2]>;;"),
        1 => "$IF,1,$DEF,DEF,<(~1)>;$DEF,,x;$DEF,<>,;;".to_string(),
        _ => format!("$DEF,u{other},y,$DEF,DEF,<~2~0>;$DEF,,x;;"),
    };
    grower.put(&call);
}
