//! Well-formed scripts, grown item by item. The grower remembers which definitions stand where it writes, so that most
//! calls find one, with the parameters that its body fetches.
use crate::faults;
use crate::groups;
use crate::letters;
use crate::locked;
use crate::m6_words;
use crate::menu_wheels;
use crate::nameless;
use crate::numbers;
use crate::random::Random;
use crate::recursion;
use crate::writing;

/// Few and short, so that names are found, defined again and updated. A body calls and updates names that stand before
/// its own in this list, so that it ends and is not being read when it is updated.
pub const NAMES: [&str; 11] = ["a", "b", " ", "ab", "7", "k", "<>", "a,b", "mk", "\0é", "t"];
/// The standard signs, with which scripts are grown.
pub const SIGNS: &[u8; 6] = b"$,;~<>";

/// Where an item stands.
#[derive(Clone, Copy)]
pub struct Place {
    /// In a body, the parameters that its calls supply.
    pub parameters: Option<usize>,
    /// Whether a call begun in this body, or in the text, is open.
    pub collecting: bool,
    /// How many of the names may be called and updated.
    pub names: usize,
    pub depth: usize,
}

impl Place {
    pub fn text() -> Place {
        Place {
            parameters: None,
            collecting: false,
            names: NAMES.len(),
            depth: 0,
        }
    }

    pub fn argument(self) -> Place {
        Place {
            collecting: true,
            depth: self.depth + 1,
            ..self
        }
    }

    pub fn body(self, name: usize, parameters: usize) -> Place {
        Place {
            parameters: Some(parameters),
            collecting: false,
            names: name,
            depth: self.depth + 1,
        }
    }
}

/// A definition that stands, if the script runs as it was meant to.
#[derive(Clone)]
pub struct Known {
    pub name: usize,
    pub needs: usize,
    pub length: usize,
    /// Whether LOCK marked it.
    pub locked: bool,
    /// What its body defines; this stays when the call ends.
    pub makes: Vec<Known>,
}

/// How often an item is drawn: in the text, in an argument there, and in a body.
type Weights = [usize; 3];
type Item = fn(&mut Grower, Place);

const ITEMS: [(Weights, Item); 34] = [
    ([100, 150, 120], Grower::word),
    ([160, 60, 60], Grower::definition),
    ([260, 150, 220], Grower::call),
    ([40, 60, 40], Grower::quoted),
    ([20, 20, 220], Grower::parameter),
    ([40, 40, 40], Grower::value),
    ([60, 30, 50], Grower::update),
    ([14, 10, 14], locked::lock),
    ([14, 8, 8], locked::marked),
    ([10, 6, 6], groups::items),
    ([40, 50, 50], Grower::arithmetic),
    ([30, 40, 40], menu_wheels::division),
    ([14, 8, 8], menu_wheels::wheel),
    ([30, 30, 30], m6_words::compared),
    ([25, 25, 25], m6_words::measured),
    ([50, 50, 50], m6_words::chosen),
    ([10, 5, 10], m6_words::branched),
    ([5, 3, 3], m6_words::hidden),
    ([10, 5, 5], nameless::hidden),
    ([8, 4, 8], nameless::barely_named),
    ([20, 0, 10], writing::rules),
    ([10, 0, 5], writing::hidden),
    ([40, 30, 30], Grower::temporary),
    ([20, 15, 10], Grower::handed),
    ([30, 15, 10], Grower::maker),
    ([15, 10, 30], Grower::comma),
    ([10, 0, 0], Grower::semicolon),
    ([4, 4, 4], Grower::any_byte),
    ([10, 3, 3], letters::macro_of_many),
    ([16, 4, 4], recursion::conditional),
    ([10, 10, 20], recursion::choice),
    ([8, 2, 2], recursion::countdown),
    ([2, 0, 0], recursion::doubling),
    ([2, 0, 0], recursion::endless),
];

pub struct Grower {
    pub random: Random,
    pub text: Vec<u8>,
    pub known: Vec<Known>,
    items_left: usize,
    /// A fault to be planted, and the items before it.
    plant: Option<(usize, u64)>,
}

/// A script of about so many items, with a fault planted where one is given. Half of them show at last what is defined.
pub fn grown(random: &mut Random, items: usize, fault: Option<u64>) -> Vec<u8> {
    let plant = fault.map(|fault| (random.below(items + 1), fault));
    let random = Random::new(random.next(), 0);
    let mut grower = Grower {
        random,
        text: Vec::new(),
        known: Vec::new(),
        items_left: items,
        plant,
    };
    while grower.items_left > 0 {
        grower.item(Place::text());
    }
    if let Some((_, fault)) = grower.plant {
        grower
            .text
            .extend(faults::planted(fault, Place::text(), &mut grower.random));
    }
    if grower.random.one_in(2) {
        grower.all_values(Place::text());
    }
    grower.text
}

impl Grower {
    pub fn put(&mut self, text: &str) {
        self.text.extend(text.as_bytes());
    }

    fn item(&mut self, place: Place) {
        self.items_left = self.items_left.saturating_sub(1);
        if let Some((before, fault)) = self.plant.take() {
            if before == 0 {
                return self.text.extend(faults::planted(fault, place, &mut self.random));
            }
            self.plant = Some((before - 1, fault));
        }
        if self.items_left == 0 || place.depth > 5 {
            return self.word(place);
        }
        let column = if place.parameters.is_some() {
            2
        } else {
            usize::from(place.collecting)
        };
        let chosen = self.random.weighted(ITEMS.iter().map(|item| item.0[column]));
        ITEMS[chosen].1(self, place);
    }

    pub fn items(&mut self, place: Place, count: usize) {
        for _ in 0..count {
            self.item(place);
        }
    }

    pub fn word(&mut self, _: Place) {
        const WORDS: [&str; 12] = ["x", "no", "p ", "1", "42", "xyz", "\n", "(", "%=", "a", "b", "k"];
        let word = self.random.pick(&WORDS);
        let times = if self.random.one_in(200) {
            self.random.between(10, 90)
        } else {
            1
        };
        self.put(&word.repeat(times));
    }

    fn any_byte(&mut self, _: Place) {
        let byte = self.random.byte();
        self.text.push(if SIGNS.contains(&byte) { b'y' } else { byte });
    }

    fn comma(&mut self, _: Place) {
        self.put(",");
    }

    /// Plain in the text outside of calls, and drawn there alone.
    fn semicolon(&mut self, _: Place) {
        self.put(";");
    }

    /// In the text outside of calls `~` is plain.
    pub fn parameter(&mut self, place: Place) {
        match place.parameters {
            Some(parameters) => {
                let which = if self.random.one_in(10) {
                    0
                } else {
                    letters::one_of(parameters, &mut self.random)
                };
                self.put(&format!("~{}", letters::digit_or_letter(which.min(parameters))));
            }
            None if place.collecting => self.word(place),
            None => {
                let plain = self.random.pick(&["~1", "~a"]);
                self.put(plain);
            }
        }
    }

    /// Quotes up to three deep, around any signs.
    fn quoted(&mut self, place: Place) {
        const PIECES: [&str; 10] = ["$", ",", ";", "~", "~1", "~a", "$a;", "x", "$DEF,", "<>"];
        self.put("<");
        for _ in 0..self.random.below(4) {
            if place.depth < 8 && self.random.one_in(3) {
                self.quoted(Place {
                    depth: place.depth + 3,
                    ..place
                });
            } else {
                let piece = self.random.pick(&PIECES);
                self.put(piece);
            }
        }
        self.put(">");
    }

    /// Seldom with a parameter, which may or may not be a number.
    fn arithmetic(&mut self, place: Place) {
        if place.parameters.unwrap_or(0) > 0 && self.random.one_in(4) {
            let right = numbers::literal(&mut self.random);
            return self
                .text
                .extend(numbers::call("+", b"~1", &right.text, &mut self.random));
        }
        let depth = self.random.below(3);
        self.text.extend(numbers::computed(&mut self.random, depth).text);
    }
}
