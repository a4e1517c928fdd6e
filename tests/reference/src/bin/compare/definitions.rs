//! DEF, VAL and UPDATE, of values in every form.
use crate::built_ins;
use crate::grower::{Grower, Known, Place, NAMES};
use crate::letters;
use crate::numbers;

impl Grower {
    /// Seldom of a built-in's name, which is then hidden.
    pub fn definition(&mut self, place: Place) {
        if self.random.one_in(150) {
            let hidden = self.random.pick(&built_ins::ALL);
            return self.put(&format!("$DEF,{hidden},<~1>;"));
        }
        let names = if place.parameters.is_some() && self.random.one_in(2) {
            place.names
        } else {
            NAMES.len()
        };
        let name = self.random.below(names.max(1));
        let known = self.defined(name, place);
        self.known.push(known);
    }

    /// The call of DEF, and what is then known of the definition.
    pub fn defined(&mut self, name: usize, place: Place) -> Known {
        let outside = self.known.len();
        self.put("$DEF,");
        self.name(name, place);
        self.put(",");
        let needs = match self.random.below(60) {
            0 => 9,
            1 => letters::many(&mut self.random),
            _ => *self.random.pick(&[&0, &0, &1, &1, &1, &2, &2, &3]),
        };
        let (before, mark) = (self.text.len(), self.known.len());
        let body = self.defined_value(name, needs, place);
        let length = if body { self.text.len() - before - 2 } else { 0 };
        let made = self.known.split_off(mark);
        let surplus = built_ins::surplus(&mut self.random);
        self.put(surplus);
        self.ends(outside, Vec::new());
        Known {
            name,
            needs,
            length,
            locked: false,
            makes: if body { made } else { Vec::new() },
        }
    }

    /// The value that DEF is given: mostly a body in quotes, and whether it is.
    fn defined_value(&mut self, name: usize, needs: usize, place: Place) -> bool {
        match self.random.below(20) {
            0..=1 => self.word(place.argument()),
            2 => self.text.extend(numbers::literal(&mut self.random).text),
            3..=4 => self.argument(place),
            5 if place.parameters.is_some() => self.spliced(place),
            6 => self.put("<1,2>"),
            _ => {
                self.put("<");
                let count = self.random.between(0, 5);
                self.items(place.body(name, needs), count);
                self.put(">");
                return true;
            }
        }
        false
    }

    /// A parameter of the body around goes into the value that is defined.
    fn spliced(&mut self, place: Place) {
        self.put("<x");
        self.items(place.body(0, 1), 1);
        self.put(">");
        self.parameter(place.argument());
        self.put("<y>");
    }

    fn value_of(&mut self, name: usize, place: Place) {
        let mark = self.known.len();
        self.put("$VAL,");
        self.name(name, place);
        let surplus = built_ins::surplus(&mut self.random);
        self.put(surplus);
        self.ends(mark, Vec::new());
    }

    pub fn value(&mut self, place: Place) {
        match self.callable(NAMES.len()) {
            Some(known) => self.value_of(known.name, place),
            None => self.instead(place),
        }
    }

    /// So that a value that came to harm is seen in the output.
    pub fn all_values(&mut self, place: Place) {
        let mut names: Vec<usize> = self.known.iter().map(|known| known.name).collect();
        names.sort_unstable();
        names.dedup();
        for name in names {
            self.value_of(name, place);
        }
    }

    /// UPDATE by a value that is no longer than the one defined, seldom of one that is locked.
    pub fn update(&mut self, place: Place) {
        const VALUES: [&str; 9] = [
            "",
            "z",
            "<~1>",
            "no",
            "<~1,>",
            "<,~1>",
            "12345",
            "<~2,<x>~1>",
            "<~1~1~1~1>",
        ];
        let Some(known) = self.callable(place.names) else {
            return self.instead(place);
        };
        if known.locked && !self.random.one_in(8) {
            return self.value_of(known.name, place);
        }
        let fitting = VALUES
            .iter()
            .filter(|value| value.trim_matches(['<', '>']).len() <= known.length)
            .count();
        let value = VALUES[self.random.below(fitting)];
        let mark = self.known.len();
        self.put("$UPDATE,");
        self.name(known.name, place);
        self.put(",");
        self.put(value);
        let surplus = built_ins::surplus(&mut self.random);
        self.put(surplus);
        self.ends(mark, Vec::new());
    }

    /// Definitions made in a body stay when those made in the list go, as in case l.
    pub fn maker(&mut self, place: Place) {
        const MADE: [&str; 4] = ["$DEF,m,<m~1>;", "$DEF,n,~1;", "$DEF,m,<>;", "$DEF,o,<on>;$UPDATE,o,~1;"];
        const SHOWN: [&str; 5] = ["$m,1;", "$VAL,n;", "$UPDATE,m,;$VAL,m;", "$DEF,m,;$n;", "$VAL,m;"];
        self.put("$DEF,n,1;$DEF,m,<2>;$DEF,l,<");
        for _ in 0..self.random.between(1, 4) {
            let made = self.random.pick(&MADE);
            self.put(made);
        }
        self.put(">;$l,x");
        for _ in 0..self.random.between(0, 2) {
            let known = self.known.len();
            self.definition(place.argument());
            self.known.truncate(known);
        }
        self.put(";");
        for _ in 0..self.random.between(1, 3) {
            let shown = self.random.pick(&SHOWN);
            self.put(shown);
        }
    }
}
