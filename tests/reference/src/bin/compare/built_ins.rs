//! The built-ins, as scripts call them.
use crate::random::Random;

pub const ALL: [&str; 12] = [
    "DEF", "VAL", "UPDATE", "+", "-", "*", "Quot", "Rem", "SEQ", "SIZE", "IF", "LOCK",
];
pub const ARITHMETIC: [&str; 5] = ["+", "-", "*", "Quot", "Rem"];
pub const FROM_M6: [&str; 3] = ["SEQ", "SIZE", "IF"];
/// Those that need one parameter alone.
pub const OF_ONE: [&str; 3] = ["VAL", "SIZE", "LOCK"];

/// One of all; those from M6 more often than others.
pub fn any(random: &mut Random) -> &'static str {
    if random.one_in(3) {
        random.pick(&ALL)
    } else {
        random.pick(&FROM_M6)
    }
}

/// Parameters past those that are needed, mostly none.
pub fn surplus(random: &mut Random) -> &'static str {
    match random.below(60) {
        0 => ",",
        1 => ",x",
        2 => ",1,$+,1,2;,,4,5,6,7,8,9",
        _ => "",
    }
}
