//! Soak scripts: the charge rises and falls many times, then comes to a new highest. With plenty lent they run to their
//! end, or to the fault planted there: every name is found, every parameter supplied, and UPDATE's values fit and are not
//! for what is locked.
use crate::built_ins;
use crate::faults::{planted, PLANTED};
use crate::grower::Place;
use crate::random::Random;

/// `e` gives nothing, `i` its parameter, `d` four times that, `p` a comma out of its body, `m` makes a definition that
/// stays, and `g` fetches into arguments. `v` is for VAL and UPDATE. `i` is also called by VAL of `w`, and `7` by a
/// result.
const HEAD: &str = "$DEF,e,;$DEF,i,<~1>;$DEF,d,<~1~1~1~1>;$DEF,p,<x,y>;$DEF,m,<$DEF,~1,~2;>;\
                    $DEF,g,<$e,~1$i,~2;,~0;~1>;$DEF,v,<12345678>;$DEF,w,i;$DEF,7,<~1~0>;";

/// Names of definitions that are called, or given by VAL, and not updated before the end.
const CALLED: [&str; 6] = ["e", "i", "p", "m", "g", "w"];

/// Names of definitions that are not called.
const NAMES: [&str; 5] = ["t", "u", " ", "ab", "t"];

/// Texts of which a part is never the beginning.
const LONG: [&str; 2] = [
    "abcdefghijklmnopqrstuvwxyz0123456789",
    "<ABC,DEF;GHI$JKL~MNO>PQRSTUVWXYZ0123456789abcdefghijklmnopqrstuvwxyz.-+_|/()0011223344556677889900",
];

/// How deep calls nest.
const DEEPEST: usize = 4;

struct Soak {
    random: Random,
    text: Vec<u8>,
    pieces_left: usize,
    /// Whether there are long texts among the words, so that lists and definitions of a thousand cells go.
    bulky: bool,
}

type Piece = fn(&mut Soak, usize);

/// Pieces that give no text, and so may stand in a name or before a number.
const SILENT: [(usize, Piece); 7] = [
    (4, Soak::eaten),
    (6, Soak::defined),
    (2, Soak::defined_again),
    (3, Soak::made),
    (3, Soak::updated),
    (2, Soak::locked),
    (1, Soak::defined_and_locked),
];

/// Pieces that give text.
const GIVING: [(usize, Piece); 10] = [
    (4, Soak::word),
    (3, Soak::given),
    (2, Soak::fetched),
    (2, Soak::value),
    (2, Soak::reckoned),
    (1, Soak::compared),
    (1, Soak::measured),
    (2, Soak::chosen),
    (1, Soak::commas),
    (2, Soak::named),
];

/// A script of some rounds, each of which may stand in a call that stays open to the end. After the last the charge
/// mostly rises highest.
pub fn script(random: &mut Random) -> Vec<u8> {
    let mut soak = Soak {
        random: Random::new(random.next(), 0),
        text: HEAD.into(),
        pieces_left: 0,
        bulky: random.one_in(4),
    };
    let (rounds, mut open) = (soak.random.between(1, 4), 0);
    for round in 1..=rounds {
        open += usize::from(soak.opened());
        soak.round(open > 0, round == rounds);
    }
    if soak.random.one_in(5) {
        let fault = PLANTED[soak.random.below(PLANTED.len())];
        let fault = planted(fault, Place::text(), &mut soak.random);
        soak.text.extend(fault);
    } else if soak.random.one_in(3) {
        soak.emptied();
    }
    soak.put(&";".repeat(open));
    soak.text
}

impl Soak {
    fn put(&mut self, text: &str) {
        self.text.extend(text.as_bytes());
    }

    fn one_of(&mut self, words: &[&str]) {
        let word = self.random.pick(words);
        self.put(word);
    }

    /// At times a call whose list has the rest of the script.
    fn opened(&mut self) -> bool {
        let opens = self.random.one_in(2);
        if opens {
            self.one_of(&["$e,", "$i,", "$DEF,t,", "$VAL,v,", "$UPDATE,v,1,", "$+,1,2,", "$m,u,"]);
        }
        opens
    }

    /// Some pieces and a summit, at times in a body that reads them.
    fn round(&mut self, collected: bool, last: bool) {
        self.pieces_left = self.random.between(4, 24);
        let in_body = self.random.one_in(4);
        if in_body {
            self.put("$DEF,z,<");
        }
        while self.pieces_left > 0 {
            self.pieces(0);
        }
        self.summit(collected, last);
        if in_body {
            self.put(">;$z,x;");
        }
    }

    /// Bytes that are collected, by the call around where there is one, or by a call of their own.
    fn summit(&mut self, collected: bool, last: bool) {
        let own = !collected || self.random.one_in(2);
        let most = if last { 160 } else { 40 };
        self.put(if own { "$e," } else { "" });
        if last && self.bulky {
            self.bulk();
            self.bulk();
        }
        let bytes = self.random.between(most / 4, most);
        self.put(&"y".repeat(bytes));
        self.put(if own { ";" } else { "" });
    }

    /// Hundreds of bytes given within few scans, at times more than a thousand.
    fn bulk(&mut self) {
        let bytes = "y".repeat(self.random.between(5, 20));
        self.put(&format!("$d,$d,$d,{bytes};;;"));
    }

    fn drawn(&mut self, from: &[(usize, Piece)], depth: usize) {
        self.pieces_left = self.pieces_left.saturating_sub(1);
        let chosen = self.random.weighted(from.iter().map(|piece| piece.0));
        from[chosen].1(self, depth + 1);
    }

    /// Pieces of both sorts; where the nesting is deep or nothing is left to draw, a word.
    fn pieces(&mut self, depth: usize) {
        for _ in 0..self.random.between(0, 3) {
            match self.random.below(2) {
                _ if depth >= DEEPEST || self.pieces_left == 0 => self.word(depth),
                0 => self.drawn(&SILENT, depth),
                _ => self.drawn(&GIVING, depth),
            }
        }
    }

    /// Mostly none, and at times several.
    fn silent(&mut self, depth: usize) {
        while depth < DEEPEST && self.pieces_left > 0 && self.random.one_in(3) {
            self.drawn(&SILENT, depth);
        }
    }

    fn arguments(&mut self, depth: usize, least: usize) {
        for _ in 0..self.random.between(least, 3) {
            self.put(",");
            self.pieces(depth);
        }
    }

    /// Parameters past those that a built-in needs, at times.
    fn surplus(&mut self, depth: usize) {
        if self.random.one_in(4) {
            self.arguments(depth, 1);
        }
    }

    fn word(&mut self, _: usize) {
        if self.bulky && self.random.one_in(20) {
            return self.bulk();
        }
        self.one_of(&["x", "x", "no", "<,;$~>", "<<z>>", "1"]);
    }

    /// A call by one of these names, and what they need to be supplied at least.
    fn called(&mut self, names: &[&str], depth: usize, least: usize) {
        self.put("$");
        self.silent(depth);
        self.one_of(names);
        self.arguments(depth, least);
        self.put(";");
    }

    fn eaten(&mut self, depth: usize) {
        self.called(&["e"], depth, 0);
    }

    fn given(&mut self, depth: usize) {
        self.called(&["i"], depth, 1);
    }

    fn fetched(&mut self, depth: usize) {
        self.called(&["g"], depth, 2);
    }

    /// The name is itself given: by a body, by VAL, by the arithmetic or by the words from M6.
    fn named(&mut self, depth: usize) {
        const NAMES: [&str; 8] = [
            "$i,i;",
            "$VAL,w;",
            "$VAL,w,v;",
            "$+,3,4;",
            "$-,3,-4;",
            "$IF,0,e,1,i;",
            "$IF,$SEQ,x,x;,i,1,e;",
            "$SIZE,1234567;",
        ];
        self.called(&NAMES, depth, 1);
    }

    fn commas(&mut self, _: usize) {
        self.put("$p;");
    }

    /// A definition made by such a call.
    fn definition(&mut self, call: &str, depth: usize) {
        self.put(call);
        self.silent(depth);
        self.one_of(&NAMES);
        self.put(",");
        self.pieces(depth);
        self.surplus(depth);
        self.put(";");
    }

    fn defined(&mut self, depth: usize) {
        self.definition("$DEF,", depth);
    }

    /// By a body, whose definitions stay when its list goes.
    fn made(&mut self, depth: usize) {
        self.definition("$m,", depth);
    }

    /// Not shorter than `v` was at first, so that every UPDATE of it fits.
    fn defined_again(&mut self, depth: usize) {
        self.put("$DEF,v,");
        self.silent(depth);
        self.put("abcdefgh");
        self.pieces(depth);
        self.put(";");
    }

    fn updated(&mut self, depth: usize) {
        self.put("$UPDATE,");
        self.silent(depth);
        self.put("v,");
        self.silent(depth);
        self.one_of(&["", "1", "<~1>", "23456", "<,>", "$i,no;", "87654321"]);
        self.surplus(depth);
        self.put(";");
    }

    /// One that is called and never updated.
    fn locked(&mut self, depth: usize) {
        self.put("$LOCK,");
        self.silent(depth);
        self.one_of(&CALLED);
        self.surplus(depth);
        self.put(";");
    }

    /// One that is not called, locked where it is made.
    fn defined_and_locked(&mut self, depth: usize) {
        let name = self.random.pick(&NAMES);
        self.put(&format!("$DEF,{name},"));
        self.pieces(depth);
        self.put(&format!(";$LOCK,{name};"));
    }

    /// At last UPDATE of one that may be locked, after all that has gone.
    fn emptied(&mut self) {
        self.put("$UPDATE,");
        self.one_of(&CALLED);
        self.put(",;");
    }

    fn value(&mut self, depth: usize) {
        self.put("$VAL,");
        self.silent(depth);
        self.put("v");
        self.surplus(depth);
        self.put(";");
    }

    fn reckoned(&mut self, depth: usize) {
        self.put("$");
        self.one_of(&built_ins::ARITHMETIC);
        for number in ["-12", "0007"] {
            self.put(",");
            self.silent(depth);
            self.put(number);
        }
        self.surplus(depth);
        self.put(";");
    }

    /// With the same word twice, or any pieces.
    fn compared(&mut self, depth: usize) {
        self.put("$SEQ,");
        if self.random.one_in(2) {
            self.silent(depth);
            self.put("no,no");
            self.surplus(depth);
        } else {
            self.pieces(depth);
            self.put(",");
            self.pieces(depth);
        }
        self.put(";");
    }

    fn measured(&mut self, depth: usize) {
        self.put("$SIZE,");
        self.pieces(depth);
        self.surplus(depth);
        self.put(";");
    }

    /// Of some pairs, of which one mostly holds; at times its second is longer than what stands before it.
    fn chosen(&mut self, depth: usize) {
        self.put("$IF");
        for _ in 0..self.random.between(1, 5) {
            self.put(",");
            self.silent(depth);
            self.one_of(&["1", "0", "0", "", "01", "$SEQ,x,x;", "$SEQ,x,no;"]);
            self.put(",");
            match self.random.below(5) {
                0 => self.one_of(&LONG),
                _ => self.pieces(depth),
            }
        }
        self.put(";");
    }
}
