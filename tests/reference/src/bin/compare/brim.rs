//! Scripts whose charge comes up to the most cells that may be lent, at last byte by byte, within some hundred scans.
//! Before that a list of thousands of cells goes, with definitions as long.
use crate::lending::LONGEST;
use crate::random::Random;

/// What a call of VAL for a name of one byte is charged with its `;`, beside which its result is charged.
const VAL: usize = 10;

/// How often VAL gives a value of this length before the room is too small, and the room that is left.
fn fill(room: usize, length: usize) -> (usize, usize) {
    let times = room.saturating_sub(VAL) / length;
    (times, room - times * length)
}

/// A call with such a list; its definitions may be several or none.
fn going(random: &mut Random) -> String {
    let values = "$VAL,c;".repeat(random.between(2, 4));
    let definitions = "$DEF,t,$VAL,c;;".repeat(random.below(4));
    format!("$e,{values}{definitions};")
}

/// `d` gives its parameter four times over; by it `b` and `c` are made of a word, and `$e,` collects their values.
pub fn script(random: &mut Random) -> Vec<u8> {
    let length = random.between(10, 16);
    let word = "y".repeat(length);
    let (b, c) = (4 * length, 256 * length);
    // The definitions of `e`, `d`, `b` and `c`, and what the open call has collected.
    let standing = 6 + 14 + (6 + b) + (6 + c) + 6;
    let (times_c, room) = fill(LONGEST - standing, c);
    let (times_b, room) = fill(room, b);
    let (values_c, values_b) = ("$VAL,c;".repeat(times_c), "$VAL,b;".repeat(times_b));
    let last = "y".repeat(random.between(room - 2, room + 2));
    let head = format!("$DEF,e,;$DEF,d,<~1~1~1~1>;$DEF,b,$d,{word};;$DEF,c,$d,$d,$d,$d,{word};;;;;");
    // Before the call that collects so much, or in its list.
    let (before, within) = match going(random) {
        going if random.one_in(2) => (going, String::new()),
        going => (String::new(), going),
    };
    format!("{head}{before}$e,{within}{values_c}{values_b}{last};").into_bytes()
}
