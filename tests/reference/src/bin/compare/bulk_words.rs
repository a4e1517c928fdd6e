//! SEQ, SIZE and IF with parameters of thousands of bytes, up to the most cells that may be lent.
use crate::lending::LONGEST;
use crate::random::Random;

/// All different, so that a text which is moved wrongly is another text.
const BYTES: &str = "abcdefghijklmnopqrstuvwxyzABCDEFGHIJKLMNOPQRSTUVWXYZ0123456789.-";

/// Room for the definition of a body that has the call.
const BODY: usize = 1_000;

/// The lengths of the values of `b` and `c`, and the cells that are left beside the definitions.
struct Values {
    b: usize,
    c: usize,
    room: usize,
}

impl Values {
    /// What gives so many bytes: the value of `c`, then that of `b`, each some times over, and the rest as it is.
    fn bytes(&self, length: usize) -> String {
        let (times_c, rest) = (length / self.c, length % self.c);
        let (times_b, rest) = (rest / self.b, rest % self.b);
        let (values_c, values_b) = ("$VAL,c;".repeat(times_c), "$VAL,b;".repeat(times_b));
        format!("{values_c}{values_b}{}", &BYTES[..rest])
    }

    /// Both the same but for a byte at one end, or the same.
    fn compared(&self, random: &mut Random) -> String {
        let longest = self.room / 2;
        let bytes = self.bytes(random.below(longest).max(random.below(longest)));
        match random.below(8) {
            0..=2 => format!("$SEQ,{bytes},{bytes};"),
            3..=4 => format!("$SEQ,{bytes}x,{bytes}y;"),
            5 => format!("$SEQ,x{bytes},y{bytes};"),
            6 => format!("$SEQ,{bytes},{bytes}y;"),
            _ => format!("$SEQ,{bytes}y,{bytes};"),
        }
    }

    /// Where the decimal or the bits of the length change, up to the last cell, or anywhere.
    fn measured(&self, random: &mut Random) -> String {
        let length = match random.below(8) {
            0..=1 => random.between(9_999, 10_001),
            2 => random.between(32_766, 32_769),
            3..=5 => random.between(self.room - 200, self.room + 2),
            _ => random.between(0, self.room),
        };
        format!("$SIZE,{};", self.bytes(length))
    }

    /// What is given may be longer than all that stands before it, or the other way round.
    fn chosen(&self, random: &mut Random) -> String {
        let before = random.below(self.room / 4) / random.between(1, 500);
        let (before, given) = (self.bytes(before), self.bytes(random.below(self.room / 3)));
        match random.below(4) {
            0 => format!("$IF,1,{given};"),
            1 => format!("$IF,1,{given},1,{before};"),
            2 => format!("$IF,0,{before},1,{given},0,x;"),
            _ => format!("$IF,{before},x,1,{given};"),
        }
    }
}

/// `d` gives its parameter four times over; by it `b` and `c` are made. A result is written, or collected and then
/// mostly shown, in the text or in a body.
pub fn script(random: &mut Random) -> Vec<u8> {
    let length = random.between(4, 16);
    let (b, c) = (4 * length, 256 * length);
    // The definitions of `i`, `d`, `b` and `c`, and the heads of the calls.
    let standing = 8 + 14 + (6 + b) + (6 + c) + 16;
    let in_body = random.one_in(4);
    let values = Values {
        b,
        c,
        room: LONGEST - standing - if in_body { BODY } else { 0 },
    };
    let call = match random.below(5) {
        0..=1 => values.compared(random),
        2 => values.measured(random),
        _ => values.chosen(random),
    };
    let word = &BYTES[..length];
    let head = format!("$DEF,i,<~1>;$DEF,d,<~1~1~1~1>;$DEF,b,$d,{word};;$DEF,c,$d,$d,$d,$d,{word};;;;;");
    let call = match random.below(8) {
        0..=2 => call,
        3 => format!("$SIZE,{call};"),
        4..=5 => format!("$i,xyz{call}xyz;"),
        _ => format!("$DEF,t,{call};$VAL,t;"),
    };
    let script = if in_body {
        format!("{head}$DEF,z,<{call}>;$z;")
    } else {
        format!("{head}{call}")
    };
    script.into_bytes()
}
