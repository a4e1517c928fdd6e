//! LOCK, and UPDATE of what it marked; and what is nearly that.
use crate::built_ins;
use crate::grower::{grown, Grower, Place, NAMES};
use crate::random::Random;

/// Pieces that come to 36, for a name `N` and a new value `@`, of which no part stands in a body: locked once or twice,
/// after an UPDATE, beside one that is updated, in a list, in the own list of UPDATE, DEF or LOCK, and found again when a
/// newer one has gone.
const IN_LISTS: [&str; 16] = [
    "$DEF,N,ab;$LOCK,N;$UPDATE,N,@;",
    "$DEF,N,ab;$LOCK,N;$UPDATE,N,@;",
    "$DEF,N,ab;$LOCK,N;$LOCK,N;$UPDATE,N,@;",
    "$DEF,N,abc;$UPDATE,N,c;$LOCK,N;$VAL,N;$N;$UPDATE,N,@;",
    "$DEF,N,1;$DEF,N,2;$LOCK,N;$UPDATE,N,@;",
    "$DEF,y,12;$DEF,N,ab;$LOCK,N;$UPDATE,y,3;$UPDATE,N,@;",
    "$DEF,N,ab;$LOCK,N;$DEF,y,12;$UPDATE,y,3;$UPDATE,N,@;",
    "$DEF,N,1;$LOCK,N;$IF,1,$DEF,N,2;$UPDATE,N,3;$N;;$UPDATE,N,@;",
    "$DEF,N,1;$LOCK,N;$VAL,N$DEF,N,ab;$LOCK,N;;$UPDATE,N,@;",
    "$DEF,N,1;$LOCK,N;$DEF,y$DEF,N,2;,$N;;$UPDATE,N,@;",
    "$DEF,N,1;$LOCK,N;$LOCK,N$DEF,N,2;;$UPDATE,N,@;",
    "$IF,1,$DEF,N,ab;$LOCK,N;$UPDATE,N,@;;",
    "$DEF,y,$DEF,N,1;$LOCK,N;$UPDATE,N,@;;",
    "$UPDATE,N,@$DEF,N,ab;$LOCK,N;;",
    "$DEF,N,1;$UPDATE,N,@$LOCK,N;;",
    "$LOCK,N$DEF,N,ab;$LOCK,N;$UPDATE,N,@;;",
];

/// Such pieces with bodies: of what is read, from a body far below, of what a body made, which moves when its list goes,
/// and found again when the list of a body has gone.
const WITH_BODIES: [&str; 18] = [
    "$DEF,N,<$UPDATE,N,@;>;$LOCK,N;$N;",
    "$DEF,N,<x$LOCK,N;$UPDATE,N,@;>;$N;",
    "$DEF,N,<$u;>;$DEF,u,<$UPDATE,N,@;>;$LOCK,N;$N;",
    "$N,$DEF,N,<$LOCK,N;$IF,1,$UPDATE,N,@;;>;;",
    "$DEF,N,<$LOCK,N;x>;$N;$UPDATE,N,@;",
    "$DEF,N,<$u;x>;$DEF,u,<$LOCK,N;>;$N;$N;$UPDATE,N,@;",
    "$DEF,N,100;$LOCK,N;$DEF,u,<x$UPDATE,N,@;>;$u;",
    "$DEF,N,100;$LOCK,N;$DEF,u,<$N;$UPDATE,N,@;>;$DEF,w,<$u,~1;>;$w,x;",
    "$DEF,l,<$LOCK,~1;>;$DEF,N,ab;$l,N;$UPDATE,N,@;",
    "$DEF,N,1;$LOCK,N;$u,$DEF,N,2;$DEF,u,<$UPDATE,N,3;$N;>;;$UPDATE,N,@;",
    "$DEF,N,1;$LOCK,N;$u,$DEF,N,2;$LOCK,N;$DEF,u,<x>;;$UPDATE,N,@;",
    "$DEF,N,1;$LOCK,N;$DEF,u,<$DEF,N,2;$UPDATE,N,3;>;$IF,1,$u;$N;;$UPDATE,N,@;",
    "$DEF,u,<$DEF,N,ab;$LOCK,N;>;$u,xyz;$UPDATE,N,@;",
    "$DEF,u,<$DEF,N,ab;$LOCK,N;>;$u,$DEF,y,z;x$DEF,y,zz;;$N;$UPDATE,N,@;",
    "$u,ab,$DEF,u,<$DEF,N,~1;$LOCK,N;>;;$UPDATE,N,@;",
    "$DEF,u,<$DEF,N,ab;$LOCK,N;$DEF,y,1;>;$DEF,w,<$u,$DEF,y,zz;~1;>;$w,x;$UPDATE,N,@;",
    "$DEF,u,<$DEF,y,1;$DEF,N,ab;$DEF,y,2;$LOCK,N;>;$u,$DEF,y,3;$LOCK,y;;$UPDATE,y,4;$UPDATE,N,@;",
    "$DEF,u,<$DEF,N,ab;>;$DEF,w,<$u,~1;$LOCK,N;>;$w,$DEF,y,z;;$N;$UPDATE,N,@;",
];

/// Pieces that end well: one defined later is updated, one that was locked has gone, another is locked, or none is, and
/// LOCK gives no text.
const KEPT: [&str; 28] = [
    "$DEF,N,100;$LOCK,N;$N;$VAL,N;$DEF,N,200;$UPDATE,N,300;$N;",
    "$DEF,N,1;$LOCK,N;$DEF,N,2;$LOCK,N;$DEF,N,3;$UPDATE,N,4;$N;",
    "$DEF,N,ab;$LOCK,N;$LOCK,N;$VAL,N;$N;",
    "$DEF,N,1;$LOCK,N$DEF,N,2;;$UPDATE,N,3;$N;",
    "$DEF,N,1;$LOCK,N,$DEF,N,2;;$UPDATE,N,3;$N;",
    "$LOCK,N$DEF,N,2;;$DEF,N,1;$UPDATE,N,3;$N;",
    "$DEF,N,1;$IF,1,$DEF,N,2;$LOCK,N;$VAL,N;;$UPDATE,N,3;$VAL,N;",
    "$IF,1,$DEF,N,ab;$LOCK,N;$N;;$DEF,N,ab;$UPDATE,N,c;$N;",
    "$DEF,N,1;$u,$DEF,N,2;$DEF,u,<$LOCK,N;$N;>;;$UPDATE,N,3;$N;",
    "$DEF,N,1;$u,$DEF,N,2;$LOCK,N;$DEF,u,<$DEF,N,3;$UPDATE,N,4;>;;$UPDATE,N,5;$N;",
    "$DEF,N,<$LOCK,N;x>;$N;$N;$VAL,N;",
    "$DEF,N,<$LOCK,N;$DEF,N,y;$UPDATE,N,z;x>;$N;$N;",
    "$DEF,N,1;$DEF,y,2;$LOCK,y;$UPDATE,N,3;$N;",
    "$DEF,y,1;$DEF,N,ab;$LOCK,N;$UPDATE,y,2;$y;$N;",
    "$DEF,y,1;$DEF,N,ab;$LOCK,N,y;$UPDATE,y,2;$y;$N;",
    "$DEF,N,1;$DEF,y,2;$LOCK,y,N;$UPDATE,N,3;$N;$y;",
    "$DEF,N,1;$DEF,NN,2;$LOCK,NN;$UPDATE,N,3;$N;$NN;",
    "$DEF,u,<$DEF,N,ab;>;$u,$DEF,y,z;$LOCK,y;;$UPDATE,N,c;$N;",
    "$DEF,u,<$DEF,y,1;$LOCK,y;$DEF,N,ab;>;$u,x;$UPDATE,N,c;$N;$y;",
    "$DEF,u,<$DEF,N,~1;$LOCK,N;$N;>;$u,1;$u,2;$DEF,N,3;$UPDATE,N,4;$VAL,N;",
    "$DEF,N,ab;$SEQ,$LOCK,N;,;$SIZE,$LOCK,N;;",
    "$DEF,N,ab;$DEF,i,<[~1]>;$i,x$LOCK,N;y;$i,$LOCK,N;;",
    "$DEF,N,ab;$$LOCK,N;N;$VAL$LOCK,N;,N;",
    "$DEF,N,ab;$DEF$LOCK,N;,N,$LOCK,N;cd;$UPDATE,N,e;$N;",
    "$DEF,N,1;$LOCK,N,$DEF,LOCK,<(~1)>;;$UPDATE,N,2;$N;",
    "$DEF,N,1;$IF,1,$DEF,LOCK,<~0>;$LOCK,N;;$UPDATE,N,2;$N;",
    "$IF,1,$DEF,LOCK,<ab~1>;$UPDATE,LOCK,<c~1>;$LOCK,x;$VAL,LOCK;;",
    "$LOCK,LOCK$DEF,LOCK,<x~1>;;",
];

/// A name that no other piece has, at times a long one or a built-in's, which is hidden then.
fn name(random: &mut Random) -> String {
    const NAMES: [&str; 12] = [
        "s",
        "s",
        "s",
        "s",
        "S",
        "stake limit",
        "<,>",
        "\0",
        "<$s;>",
        "Rem",
        "*",
        "-",
    ];
    if random.one_in(20) {
        return "s".repeat(random.between(200, 300));
    }
    random.pick(&NAMES).to_string()
}

/// A new value: one that fits, one that is longer than most that are defined, or one whose list has a definition.
fn value(random: &mut Random) -> String {
    const VALUES: [&str; 9] = [
        "",
        "1",
        "c",
        "no",
        "<~1>",
        "<,>",
        "$SIZE,xx;",
        "$DEF,n,y;1",
        "$IF,1,<0123456789abcdef>;",
    ];
    match random.below(4) {
        0 => "y".repeat(random.between(30, 200)),
        _ => random.pick(&VALUES).to_string(),
    }
}

/// What is defined and locked then: mostly short, at times of hundreds of bytes.
fn defined(random: &mut Random) -> String {
    match random.below(12) {
        0 => "y".repeat(random.between(60, 300)),
        1 => "<a~1>".to_string(),
        2 => String::new(),
        _ => "ab".to_string(),
    }
}

/// The name as LOCK is given it: as it is, in quotes, given by a call, or after a definition.
fn given(name: &str, random: &mut Random) -> String {
    match random.below(24) {
        0 => format!("<>{name}"),
        1 => format!("$IF,1,{name};"),
        2 => format!("$v,$DEF,v,<<>{name}>;;"),
        3 => format!("$DEF,v,x;{name}"),
        4 => format!("$VAL,v$DEF,v,{name};;"),
        _ => name.to_string(),
    }
}

/// Parameters past the first, at times so long that the charge is highest at the `;`.
fn surplus(random: &mut Random) -> String {
    const SURPLUS: [&str; 6] = [",", ",x", ",,", ",$DEF,y,1;", ",$+,1,2;", ",<$~;>,1,2,3,4,5,6,7,8,9"];
    match random.below(16) {
        0 => random.pick(&SURPLUS).to_string(),
        1 => format!(",{}", "y".repeat(random.between(20, 300))),
        _ => String::new(),
    }
}

/// A piece with its name and value, each LOCK in it in a form of its own.
fn filled(piece: &str, name: &str, random: &mut Random) -> String {
    let mut parts = piece.split("$LOCK,N");
    let mut filled = parts.next().unwrap_or_default().to_string();
    for part in parts {
        let given = given(name, random);
        let surplus = if part.starts_with(';') {
            surplus(random)
        } else {
            String::new()
        };
        filled.push_str(&format!("$LOCK,{given}{surplus}{part}"));
    }
    let (defined, more) = (defined(random), random.pick(&["", "", "", "", "", "", "", ",", ",x"]));
    filled
        .replace(",ab;", &format!(",{defined};"))
        .replace("@;", &format!("@{more};"))
        .replace('N', name)
        .replace('@', &value(random))
}

/// A piece where it stands: alone, in a list, in a body, or in a body that a list calls.
fn placed(piece: &str, random: &mut Random) -> String {
    const AROUND: [&str; 7] = [
        "$IF,1,",
        "$SIZE,",
        "$SEQ,x,",
        "$DEF,x,",
        "$VAL,x$DEF,x,;,",
        "$e,$DEF,e,<~1>;,",
        "$+,1,2,",
    ];
    let around = random.pick(&AROUND);
    match random.below(12) {
        0..=5 => piece.to_string(),
        6..=7 => format!("{around}{piece};"),
        8 => format!("$DEF,z,<x{piece}>;$z;"),
        9 => format!("$DEF,z,<{around}{piece};>;$z,xy;"),
        10 => format!("$DEF,z,<{piece}>;{around}$z;;"),
        _ => format!("$DEF,z,<{piece}>;$DEF,x,<$z,$DEF,e,1;;>;$x,12;"),
    }
}

/// A piece that comes to 36; at times its name is fetched.
fn piece(random: &mut Random) -> String {
    if random.one_in(8) {
        let (name, piece) = (name(random), random.pick(&IN_LISTS));
        let piece = filled(piece, "~1", random);
        return format!("$DEF,z,<{piece}>;$z,{name};");
    }
    let piece = if random.one_in(2) {
        random.pick(&IN_LISTS)
    } else {
        random.pick(&WITH_BODIES)
    };
    let name = name(random);
    let piece = filled(piece, &name, random);
    placed(&piece, random)
}

pub fn refused(random: &mut Random) -> Vec<u8> {
    piece(random).into_bytes()
}

/// LOCK without a parameter, or UPDATE of what is locked without a value: 13.
pub fn alone(random: &mut Random) -> String {
    const ALONE: [&str; 5] = [
        "$LOCK;",
        "$LOCK<>;",
        "$DEF,s,1;$LOCK;",
        "$DEF,s,1;$LOCK$DEF,y,1;;",
        "$DEF,s,1;$LOCK,s;$UPDATE,s;",
    ];
    let piece = random.pick(&ALONE);
    placed(piece, random)
}

/// LOCK of a name that is not defined, or is no more, UPDATE of such beside one that is locked, or nearly LOCK: 15.
pub fn not_defined(random: &mut Random) -> String {
    const NOT_DEFINED: [&str; 8] = [
        "$LOCK,zz;",
        "$LOCK,zz,x;",
        "$DEF,s,1;$LOCK,s;$LOCK,ss;",
        "$LOCK,zz$DEF,zz,1;;$LOCK,zz;",
        "$DEF,s,1;$LOCK,s;$UPDATE,zz,x;",
        "$DEF,s,1;$LOC,s;",
        "$DEF,s,1;$LOCKS,s;",
        "$DEF,s,1;$Lock,s;",
    ];
    let piece = random.pick(&NOT_DEFINED);
    placed(piece, random)
}

/// LOCK of a built-in, or VAL or UPDATE of LOCK: 19.
fn built_in(random: &mut Random) -> String {
    let piece = match random.below(4) {
        0 => format!("$VAL,LOCK{};", surplus(random)),
        1 => "$UPDATE,LOCK,x;".to_string(),
        _ => format!("$LOCK,{}{};", built_ins::any(random), surplus(random)),
    };
    placed(&piece, random)
}

/// A piece that ends well.
fn kept(random: &mut Random) -> String {
    let piece = random.pick(&KEPT);
    let name = name(random);
    let piece = filled(piece, &name, random);
    placed(&piece, random)
}

pub fn marked(grower: &mut Grower, _: Place) {
    let piece = kept(&mut grower.random);
    grower.put(&piece);
}

/// LOCK of a definition that stands; in a body at times of the one whose body it is.
pub fn lock(grower: &mut Grower, place: Place) {
    let own = place.parameters.is_some() && grower.random.one_in(4);
    let name = match grower.callable(NAMES.len()) {
        _ if own => place.names.min(NAMES.len() - 1),
        Some(known) => known.name,
        None => return grower.instead(place),
    };
    let mark = grower.known.len();
    grower.put("$LOCK,");
    grower.name(name, place);
    let surplus = built_ins::surplus(&mut grower.random);
    grower.put(surplus);
    grower.ends(mark, Vec::new());
    if let Some(known) = grower.known.iter_mut().rfind(|known| known.name == name) {
        known.locked = true;
    }
}

/// A script with LOCK, or UPDATE of what it marked, at its end, so that what is lent is often just too little for it.
pub fn script(random: &mut Random) -> Vec<u8> {
    let before = if random.one_in(4) {
        grown(random, 4, None)
    } else {
        Vec::new()
    };
    let piece = match random.below(16) {
        0 => alone(random),
        1 => not_defined(random),
        2 => built_in(random),
        3..=6 => kept(random),
        7..=9 => at_last(random),
        _ => piece(random),
    };
    [before, piece.into_bytes()].concat()
}

/// LOCK with a list that is longer than all before it.
fn at_last(random: &mut Random) -> String {
    const BEFORE: [&str; 5] = [
        "$DEF,N,ab;$LOCK,N,@;",
        "$DEF,N,ab;$LOCK,N,@;$UPDATE,N,c;",
        "$DEF,N,<$LOCK,N,@;>;$N;",
        "$DEF,N,ab;$SIZE,xx$LOCK,N,@;;",
        "$DEF,u,<$DEF,N,ab;>;$u,x;$LOCK,N,@$DEF,y,1;;",
    ];
    let (piece, name) = (random.pick(&BEFORE), name(random));
    let bytes = "y".repeat(random.between(30, 120));
    piece.replace('N', &name).replace('@', &bytes)
}
