//! Strachey's conditional, recursion that ends by it, and recursion that does not end.
use crate::grower::{Grower, Place};

const CHOICES: [&str; 5] = ["a", "b", "7", "no", " "];

/// The choice between two values by a name, as in case i.
fn chosen(grower: &mut Grower, name: &str, place: Place) {
    let other = grower.random.pick(&CHOICES);
    grower.put(&format!("${name},$DEF,{name},"));
    grower.word(place);
    grower.put(&format!(";$DEF,{other},<~0"));
    grower.word(place);
    grower.put(">;;");
}

/// A choice by a parameter in a body, else by a word.
pub fn choice(grower: &mut Grower, place: Place) {
    match place.parameters {
        Some(parameters) if parameters > 0 => chosen(grower, "~1", place),
        _ => {
            let name = grower.random.pick(&CHOICES);
            chosen(grower, name, place);
        }
    }
}

/// Case i: a macro that chooses, and calls of it.
pub fn conditional(grower: &mut Grower, place: Place) {
    grower.put("$DEF,t,<");
    chosen(grower, "~1", place.body(0, 1));
    grower.put(">;");
    for _ in 0..grower.random.between(1, 3) {
        let name = grower.random.pick(&CHOICES);
        grower.put(&format!("$t,{name};"));
    }
}

/// Counts down from a digit to 0, choosing by IF which name is called.
fn counted_by_if(grower: &mut Grower) {
    const STEPS: [&str; 4] = [
        "$IF,$SEQ,~1,0;,z,1,f;",
        "$IF,$SEQ,~1,1;,z,$SIZE,~1;,f,1,z;",
        "$IF,$SEQ,~1,0;,z,$SEQ,~1,3;,g,1,f;",
        "$IF,0,f,$SEQ,~1~1,00;,z,1,f;",
    ];
    let step = grower.random.pick(&STEPS);
    let from = grower.random.between(0, 9);
    grower.put("$DEF,z,end;$DEF,g,<g$f,~1;>;");
    grower.put(&format!("$DEF,f,<~1 ${step},$-,~1,1;;>;$f,{from};"));
}

/// Counts down from a digit to 0 by the conditional, giving text or a number on the way.
pub fn countdown(grower: &mut Grower, _: Place) {
    const STEPS: [&str; 6] = [
        "$f,$-,~1,1;;",
        "~1 $f,$-,~1,1;;",
        "$+,~1,$f,$-,~1,1;;;",
        "$*,~1,$f,$+,-1,~1;;;",
        "$f,$Quot,~1,2;;$f,$Quot,~1,2;;",
        "$DEF,k,~1;$f,$-,~1,1;;$VAL,k;",
    ];
    if grower.random.one_in(2) {
        return counted_by_if(grower);
    }
    let step = grower.random.pick(&STEPS);
    let from = grower.random.between(0, 9);
    grower.put(&format!("$DEF,f,<$~1,~1,$DEF,~1,<{step}>;$DEF,0,1;;>;$f,{from};"));
}

/// A tower of macros that each call the one below twice or thrice; a high one takes more than any allowance.
pub fn doubling(grower: &mut Grower, _: Place) {
    const LEVELS: &[u8] = b"abcdefghijklmn";
    let height = if grower.random.one_in(12) {
        LEVELS.len() - 1
    } else {
        grower.random.between(2, 6)
    };
    let bottom = grower
        .random
        .pick(&["", "x", "~1", "$DEF,k,x;", "$DEF,z,0;$UPDATE,z,1;"]);
    let calls = grower
        .random
        .pick(&["$L,~1;$L,;", "$L,~1~1;$L,~1;", "$L,$L,x;;", "$L,1;$L,2;$L,3;"]);
    grower.put(&format!("$DEF,a,<{bottom}>;"));
    for level in 1..=height {
        let below = (LEVELS[level - 1] as char).to_string();
        grower.put(&format!(
            "$DEF,{},<{}>;",
            LEVELS[level] as char,
            calls.replace('L', &below)
        ));
    }
    grower.put(&format!("${},1;", LEVELS[height] as char));
}

/// Recursion without end, by one macro or two. Mostly the parameters grow, so that the cells are soon full.
pub fn endless(grower: &mut Grower, _: Place) {
    const SLOW: [&str; 6] = [
        "$DEF,e,<$e;>;$e;",
        "$DEF,e,<xx$e;>;$e;",
        "$DEF,e,<$k,$e;;>;$e;",
        "$DEF,e,<$$e;;>;$e;",
        "$DEF,e,<$g;>;$DEF,g,<$DEF,x,1;$e;>;$e;",
        "$DEF,e,<$e,$+,~1,1;;>;$e,2147483600;",
    ];
    const SOON: [&str; 6] = [
        "$DEF,e,<$e,~1~1;>;$e,1;",
        "$DEF,e,<~1$e,~1~1y;>;$e,;",
        "$DEF,e,<$e,~1~1,~1$DEF,~1,$VAL,~1;~1;;>;$DEF,y,1;$e,y;",
        "$DEF,e,<$g,~2,~1;>;$DEF,g,<$DEF,~1~2,~1~2;$e,~2~1,~1x;>;$e,1,2;",
        "$DEF,e,<$DEF,x,<xxxxxxxxxxxxxxxx>~1<yyyyyyyyyyyyyyy>;$e,$x;$x;$x;;>;$e,;",
        "$DEF,e,<~1$e,~1~1~1;>;$e,xyz;",
    ];
    let scripts = if grower.random.one_in(16) { &SLOW } else { &SOON };
    let script = grower.random.pick(scripts);
    grower.put(script);
}
