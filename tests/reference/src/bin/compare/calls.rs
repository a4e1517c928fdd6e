//! Calls, with the name and the arguments in every form.
use crate::grower::{Grower, Known, Place, NAMES, SIGNS};
use crate::numbers;

impl Grower {
    /// A name as it is, in quotes, after a definition, or given by a call.
    pub fn name(&mut self, name: usize, place: Place) {
        let name = NAMES[name];
        if name.bytes().any(|byte| SIGNS.contains(&byte)) {
            return self.put(&format!("<{name}>"));
        }
        match self.random.below(30) {
            0 => self.put(&format!("<{name}>")),
            1 => self.put(&format!("<>{name}")),
            2 => self.put(&format!("$v,$DEF,v,<{name}>;;")),
            4 => self.put(&format!("$IF,1,<{name}>;")),
            3 if place.depth < 4 => {
                self.definition(place.argument());
                self.put(name);
            }
            _ => self.put(name),
        }
    }

    pub fn argument(&mut self, place: Place) {
        let place = place.argument();
        match self.random.below(12) {
            0 => {}
            1..=4 => self.word(place),
            5 => self.text.extend(numbers::literal(&mut self.random).text),
            6 if place.parameters.is_some() => self.parameter(place),
            _ => {
                let count = self.random.between(1, 3);
                self.items(place, count);
            }
        }
    }

    /// Of many arguments most are words, so that scripts do not grow long by them.
    fn arguments(&mut self, place: Place, count: usize) {
        for _ in 0..count {
            self.put(",");
            if count > 9 && !self.random.one_in(8) {
                self.word(place.argument());
            } else {
                self.argument(place);
            }
        }
    }

    /// The newest definition of a name that may be called.
    pub fn callable(&mut self, names: usize) -> Option<Known> {
        let callable: Vec<usize> = self
            .known
            .iter()
            .map(|known| known.name)
            .filter(|&name| name < names)
            .collect();
        let name = *callable.get(self.random.below(callable.len().max(1)))?;
        self.known.iter().rev().find(|known| known.name == name).cloned()
    }

    /// Where there is nothing to call.
    pub fn instead(&mut self, place: Place) {
        match place.parameters {
            Some(_) => self.parameter(place),
            None => self.definition(place),
        }
    }

    /// The definitions made in the list go with it; those made in the body stay.
    pub fn ends(&mut self, mark: usize, makes: Vec<Known>) {
        self.put(";");
        self.known.truncate(mark);
        self.known.extend(makes);
    }

    /// With more parameters than are needed, as names are defined again with other needs.
    pub fn call(&mut self, place: Place) {
        let Some(known) = self.callable(place.names) else {
            return self.instead(place);
        };
        let mark = self.known.len();
        self.put("$");
        self.name(known.name, place);
        let supplied = known.needs.max(self.random.between(0, 3));
        self.arguments(place, supplied);
        self.ends(mark, known.makes);
    }

    /// A call of a name that is defined among its own arguments, as in case c.
    pub fn temporary(&mut self, place: Place) {
        let name = self.random.below(NAMES.len());
        let mark = self.known.len();
        self.put("$");
        self.name(name, place);
        let supplied = self.random.between(2, 3);
        self.arguments(place, supplied);
        self.put(",");
        let known = self.defined(name, place.argument());
        self.ends(mark, known.makes);
    }

    /// The parameters of a built-in, or all of a call, from the commas of a body, as in case f.
    pub fn handed(&mut self, _: Place) {
        const LISTS: [&str; 13] = [
            "DEF,a,x",
            "+,1,2",
            "b,1",
            "-,7",
            "Rem,-7",
            "Quot,-9",
            "VAL,b",
            "UPDATE,b,",
            "LOCK,b",
            "SEQ,x,x",
            "SIZE,xy",
            "IF,1,x",
            "IF,0,x,1",
        ];
        let (name, rest) = self.random.pick(&LISTS).split_once(',').unwrap_or_default();
        let script = match self.random.below(3) {
            0 => format!("$$v,$DEF,v,<{name},{rest}>;;$DEF,b,<~1>;,2;"),
            1 => format!("$DEF,u,<{rest}>;${name},$u;$DEF,b,;,3;"),
            _ => format!("${name}$v,$DEF,v,<,{rest}>;;,4$DEF,b,<~2>;;"),
        };
        self.put(&script);
    }
}
