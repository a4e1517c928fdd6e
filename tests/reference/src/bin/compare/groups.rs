//! Scripts with many definitions whose names share a group, or not: made in lists that go and in bodies whose own stay,
//! one in another, and looked up then by calls, VAL, UPDATE and LOCK. What is written remembers what stands, so that most
//! lookups find a definition.
use crate::built_ins;
use crate::grower::{Grower, Place, SIGNS};
use crate::random::Random;

/// How deep lists and bodies nest.
const DEEPEST: usize = 3;

/// Built-ins that no script here calls, so that a definition may hide them.
const HIDDEN: [&str; 6] = ["+", "-", "*", "Quot", "Rem", "SEQ"];

type Name = Vec<u8>;

/// What is written next, so deep in lists and bodies.
type Item = fn(&mut Groups, usize);

fn plain(byte: u8) -> bool {
    !SIGNS.contains(&byte)
}

fn group(name: &[u8]) -> usize {
    name.iter().map(|&byte| usize::from(byte)).sum::<usize>() % 64
}

/// Often a letter, at times any byte, or one above 127.
fn byte(random: &mut Random) -> u8 {
    loop {
        let byte = match random.below(6) {
            0..=2 => random.between(0x61, 0x7a) as u8,
            3 => random.between(0x80, 0xff) as u8,
            4 => random.between(0x30, 0x5a) as u8,
            _ => random.byte(),
        };
        if plain(byte) {
            return byte;
        }
    }
}

/// A last byte with which a name has this group.
fn last(name: &[u8], of: usize, random: &mut Random) -> u8 {
    let least = (of + 64 - group(name)) % 64;
    loop {
        let byte = (least + 64 * random.below(4)) as u8;
        if plain(byte) {
            return byte;
        }
    }
}

/// A name of this group and length.
fn of_length(length: usize, of: usize, random: &mut Random) -> Name {
    let mut name: Name = (1..length).map(|_| byte(random)).collect();
    name.push(last(&name, of, random));
    name
}

/// A name of this group, mostly of two or three bytes.
fn of_group(of: usize, random: &mut Random) -> Name {
    let length = match random.below(16) {
        0..=1 => 1,
        2..=8 => 2,
        9..=13 => 3,
        14 => random.between(4, 12),
        _ => random.between(20, 70),
    };
    of_length(length, of, random)
}

/// A name that is nearly this one: its bytes in another order, a byte 64 away, or 64 bytes longer.
fn near(name: &[u8], random: &mut Random) -> Name {
    let mut near = name.to_vec();
    let place = random.below(near.len());
    match random.below(4) {
        0..=1 => near.swap(place, random.below(name.len())),
        2 => near[place] = last(&[], usize::from(near[place]) % 64, random),
        _ => near.push(b'@'),
    }
    near
}

/// Names of one group, of which many are near one another.
fn one_group(count: usize, of: usize, random: &mut Random) -> Vec<Name> {
    let mut names = vec![of_group(of, random)];
    while names.len() < count {
        let name = match random.below(2) {
            0 => of_group(of, random),
            _ => near(&names[random.below(names.len())], random),
        };
        names.push(name);
    }
    names
}

/// Names that share the group of a built-in, its own turned round among them.
fn beside_built_in(random: &mut Random) -> Vec<Name> {
    let built_in = random.pick(&built_ins::ALL).as_bytes();
    let mut names = one_group(random.between(2, 6), group(built_in), random);
    let turned: Name = built_in.iter().rev().copied().collect();
    if turned != built_in {
        names.push(turned);
    }
    names
}

/// A built-in that is hidden, with names of its group.
fn hiding(random: &mut Random) -> Vec<Name> {
    let hidden = random.pick(&HIDDEN).as_bytes();
    let mut names = one_group(random.between(1, 4), group(hidden), random);
    names.push(hidden.to_vec());
    names
}

/// Names of about 256 bytes that differ in a byte or two, or beside one that is shorter by 256.
fn long_names(random: &mut Random) -> Vec<Name> {
    let (length, of) = (random.between(250, 300), random.below(64));
    let mut names = match random.below(3) {
        0 => {
            let short = of_group(of, random);
            vec![[&short[..], &[b'@'; 256]].concat(), short]
        }
        _ => vec![of_length(length, of, random)],
    };
    for _ in 0..random.between(1, 3) {
        names.push(near(&names[0], random));
    }
    names
}

/// The names of a script.
fn names(random: &mut Random) -> Vec<Name> {
    let of = random.below(64);
    match random.below(14) {
        0..=4 => one_group(random.between(2, 8), of, random),
        5..=6 => {
            let mut names = one_group(random.between(2, 4), of, random);
            names.extend(one_group(random.between(2, 4), (of + 1) % 64, random));
            names.extend(one_group(2, random.below(64), random));
            names
        }
        7 => beside_built_in(random),
        8..=9 => hiding(random),
        10 => (0..64).map(|of| of_group(of, random)).collect(),
        11 => one_group(random.between(16, 40), of, random),
        _ => long_names(random),
    }
}

/// A definition that stands, if the script runs as it was meant to.
#[derive(Clone)]
struct Known {
    name: usize,
    serial: usize,
    length: usize,
    locked: bool,
    read: bool,
    /// What its body makes, which stays when the call ends.
    makes: Vec<Known>,
}

struct Groups {
    random: Random,
    text: Vec<u8>,
    names: Vec<Name>,
    known: Vec<Known>,
    serial: usize,
    items_left: usize,
    /// Names whose call is being collected, and which are not defined there.
    called: Vec<usize>,
}

impl Groups {
    fn new(names: Vec<Name>, items: usize, random: &mut Random) -> Groups {
        Groups {
            random: Random::new(random.next(), 0),
            text: Vec::new(),
            names,
            known: Vec::new(),
            serial: 0,
            items_left: items,
            called: Vec::new(),
        }
    }

    fn put(&mut self, text: &str) {
        self.text.extend(text.as_bytes());
    }

    fn put_name(&mut self, name: usize) {
        let name = self.names[name].clone();
        self.text.extend(name);
    }

    fn know(&mut self, name: usize, length: usize) -> usize {
        self.serial += 1;
        self.known.push(Known {
            name,
            serial: self.serial,
            length,
            locked: false,
            read: false,
            makes: Vec::new(),
        });
        self.serial
    }

    fn newest(&mut self, name: usize) -> Option<&mut Known> {
        self.known.iter_mut().rfind(|known| known.name == name)
    }

    fn of_serial(&mut self, serial: usize) -> Option<&mut Known> {
        self.known.iter_mut().find(|known| known.serial == serial)
    }

    /// The name of one that stands, old or new.
    fn standing(&mut self) -> Option<usize> {
        let place = self.random.below(self.known.len().max(1));
        self.known.get(place).map(|known| known.name)
    }

    /// A name to be defined.
    fn any(&mut self) -> usize {
        let mut name = self.random.below(self.names.len());
        while self.called.contains(&name) && self.names.len() > self.called.len() {
            name = self.random.below(self.names.len());
        }
        name
    }

    /// A value that no other definition has, mostly.
    fn value(&mut self) -> String {
        match self.random.below(12) {
            0 => String::new(),
            1 => format!("({})", self.serial),
            _ => self.serial.to_string(),
        }
    }

    fn define(&mut self, _: usize) {
        let (name, value) = (self.any(), self.value());
        self.put("$DEF,");
        self.put_name(name);
        self.put(&format!(",{value};"));
        self.know(name, value.len());
    }

    /// Some definitions and nothing else, mostly none.
    fn definitions(&mut self, seldom: usize) {
        if self.random.one_in(seldom) {
            for _ in 0..self.random.between(1, 3) {
                self.define(0);
            }
        }
    }

    /// A call of what stands, at times with definitions in its list; seldom of one that is read, which mostly has no end.
    fn call(&mut self, depth: usize) {
        let Some(name) = self.standing() else {
            return self.define(depth);
        };
        if self.newest(name).is_some_and(|known| known.read) && !self.random.one_in(40) {
            return self.built_in("VAL", name);
        }
        let mark = self.known.len();
        self.put("$");
        self.put_name(name);
        let comma = self.random.pick(&["", "", ","]);
        self.put(comma);
        self.definitions(3);
        self.put(";");
        let makes = self.newest(name).map(|known| known.makes.clone()).unwrap_or_default();
        self.known.truncate(mark);
        for mut made in makes {
            self.serial += 1;
            made.serial = self.serial;
            self.known.push(made);
        }
    }

    /// VAL, UPDATE or LOCK of a name, at times with definitions in its own list.
    fn built_in(&mut self, called: &str, name: usize) {
        let mark = self.known.len();
        self.put(&format!("${called},"));
        self.definitions(8);
        self.put_name(name);
        self.definitions(5);
        self.acts(called, name);
        self.put(";");
        self.known.truncate(mark);
    }

    /// What it does to the newest, which may be one of its own list.
    fn acts(&mut self, called: &str, name: usize) {
        let new = self.serial.to_string();
        let Some(known) = self.newest(name) else {
            return;
        };
        match called {
            "UPDATE" => {
                let fits = new.len() <= known.length;
                self.put(&format!(",{}", if fits { &new } else { "" }));
                self.definitions(8);
            }
            "LOCK" => known.locked = true,
            _ => {}
        }
    }

    fn value_of(&mut self, depth: usize) {
        match self.standing() {
            Some(name) => self.built_in("VAL", name),
            None => self.define(depth),
        }
    }

    fn update(&mut self, depth: usize) {
        match self.standing() {
            Some(name) => self.update_of(name),
            None => self.define(depth),
        }
    }

    /// Seldom of one that is locked or read.
    fn update_of(&mut self, name: usize) {
        let refused = self.newest(name).is_some_and(|known| known.locked || known.read);
        let called = if refused && !self.random.one_in(12) {
            "VAL"
        } else {
            "UPDATE"
        };
        self.built_in(called, name);
    }

    fn lock(&mut self, depth: usize) {
        match self.standing() {
            Some(name) => self.built_in("LOCK", name),
            None => self.define(depth),
        }
    }

    /// A list of a built-in, with items that go with it.
    fn list(&mut self, depth: usize) {
        let mark = self.known.len();
        let around = self.random.pick(&["$IF,1,", "$IF,1,", "$SIZE,", "$IF,0,x,1,"]);
        self.put(around);
        self.items(depth + 1);
        self.put(";");
        self.known.truncate(mark);
    }

    /// DEF, with definitions in its own list.
    fn define_after(&mut self, _: usize) {
        let (mark, name, value) = (self.known.len(), self.any(), self.value());
        self.put("$DEF,");
        self.definitions(2);
        self.put_name(name);
        self.put(",");
        self.definitions(1);
        self.put(&format!("{value};"));
        self.known.truncate(mark);
        self.know(name, value.len());
    }

    /// A macro and a call of it: its list goes from beneath what its body makes. The macro is defined before the call, or
    /// at the end of its list and goes with it.
    fn body(&mut self, depth: usize) {
        let name = self.any();
        let before = std::mem::take(&mut self.text);
        let first = (!self.random.one_in(3)).then(|| self.know(name, 0));
        let mark = self.known.len();
        self.called.push(name);
        self.list_of_body(depth);
        self.called.pop();
        let serial = first.unwrap_or_else(|| self.know(name, 0));
        let list = std::mem::take(&mut self.text);
        let begun = self.known.len();
        let body = self.read(serial, depth);
        self.known.drain(mark..begun);
        self.text = before;
        self.put_call(name, &list, &body, first.is_none());
        self.look_up_from(mark);
    }

    /// Mostly a lookup of what a body made, from this place on, in the body or when it has ended.
    fn look_up_from(&mut self, mark: usize) {
        let made = self.known.len().saturating_sub(mark);
        let place = mark + self.random.below(made.max(1));
        let Some(name) = self.known.get(place).map(|known| known.name) else {
            return;
        };
        match self.random.below(5) {
            0 => self.built_in("LOCK", name),
            1 => self.update_of(name),
            2..=3 => self.built_in("VAL", name),
            _ => {}
        }
    }

    /// Definitions, mostly, and at times others.
    fn list_of_body(&mut self, depth: usize) {
        match self.random.below(5) {
            0 => {}
            1 => self.items(depth + 1),
            _ => self.definitions(1),
        }
    }

    /// The body of the definition with this serial number.
    fn read(&mut self, serial: usize, depth: usize) -> Vec<u8> {
        let begun = self.known.len();
        self.of_serial(serial).into_iter().for_each(|known| known.read = true);
        self.items(depth + 1);
        self.look_up_from(begun);
        self.definitions(2);
        let body = std::mem::take(&mut self.text);
        let makes = self.known[begun..].to_vec();
        if let Some(known) = self.of_serial(serial) {
            (known.read, known.length, known.makes) = (false, body.len(), makes);
        }
        body
    }

    fn put_call(&mut self, name: usize, list: &[u8], body: &[u8], in_list: bool) {
        if !in_list {
            self.put_definition(name, body);
        }
        self.put("$");
        self.put_name(name);
        self.put(",");
        self.text.extend(list);
        if in_list {
            self.put_definition(name, body);
        }
        self.put(";");
    }

    fn put_definition(&mut self, name: usize, body: &[u8]) {
        self.put("$DEF,");
        self.put_name(name);
        self.put(",<");
        self.text.extend(body);
        self.put(">;");
    }

    fn item(&mut self, depth: usize) {
        const ITEMS: [(usize, Item); 9] = [
            (24, Groups::define),
            (16, Groups::call),
            (8, Groups::value_of),
            (8, Groups::update),
            (4, Groups::lock),
            (6, Groups::define_after),
            (12, Groups::list),
            (14, Groups::body),
            (2, Groups::word),
        ];
        self.items_left = self.items_left.saturating_sub(1);
        let few = if depth < DEEPEST { ITEMS.len() } else { 6 };
        let chosen = self.random.weighted(ITEMS[..few].iter().map(|item| item.0));
        ITEMS[chosen].1(self, depth);
    }

    fn word(&mut self, _: usize) {
        self.put("x");
    }

    fn items(&mut self, depth: usize) {
        for _ in 0..self.random.between(1, 4) {
            if self.items_left > 0 {
                self.item(depth);
            }
        }
    }

    /// So many definitions, of names that are looked up later or not.
    fn many(&mut self, count: usize) {
        let of = self.random.below(64);
        let one = self.random.one_in(2);
        for number in 0..count {
            let name = of_group(if one { of } else { (of + number) % 64 }, &mut self.random);
            if name.len() > 3 && count > 60 {
                continue;
            }
            self.names.push(name);
            let value = if count > 60 { String::new() } else { self.value() };
            self.put("$DEF,");
            self.put_name(self.names.len() - 1);
            self.put(&format!(",{value};"));
            self.know(self.names.len() - 1, value.len());
        }
    }

    /// At last what stands is shown, so that a wrong one is seen.
    fn shown(&mut self) {
        let mut names: Vec<usize> = self.known.iter().map(|known| known.name).collect();
        names.sort_unstable();
        names.dedup();
        let from = self.random.below(names.len().max(1));
        names.rotate_left(from);
        names.truncate(24);
        for name in names {
            self.put("$VAL,");
            self.put_name(name);
            self.put("; ");
        }
    }

    /// A lookup of a name that does not stand, though others of its group do.
    fn missing(&mut self) {
        let stands = |name: &Name| self.known.iter().any(|known| self.names[known.name] == *name);
        let gone: Vec<Name> = self.names.iter().filter(|name| !stands(name)).cloned().collect();
        let name = match gone.get(self.random.below(gone.len().max(1))) {
            Some(name) if !self.random.one_in(3) => name.clone(),
            _ => near(&self.names[0], &mut self.random),
        };
        let (before, after) = match self.random.below(4) {
            0 => ("$VAL,", ";"),
            1 => ("$UPDATE,", ",;"),
            2 => ("$LOCK,", ";"),
            _ => ("$", ";"),
        };
        self.put(before);
        self.text.extend(name);
        self.put(after);
    }

    /// VAL, UPDATE or LOCK of a built-in, beside definitions of its group.
    fn of_built_in(&mut self) {
        let built_in = self.random.pick(&built_ins::ALL);
        let beside = of_group(group(built_in.as_bytes()), &mut self.random);
        self.put("$DEF,");
        self.text.extend(beside);
        let called = self.random.pick(&["VAL", "LOCK", "UPDATE"]);
        self.put(&format!(",1;${called},{built_in},;"));
    }
}

/// How many definitions stand first: mostly few, at times hundreds, seldom over a thousand.
fn head(random: &mut Random) -> usize {
    match random.below(48) {
        0..=27 => random.below(4),
        28..=37 => random.between(6, 40),
        38..=43 => random.between(60, 110),
        44..=46 => random.between(110, 400),
        _ if random.one_in(4) => random.between(900, 1_400),
        _ => random.between(300, 600),
    }
}

/// A script with so many definitions first and about so many items.
fn grown(count: usize, items: usize, random: &mut Random) -> Vec<u8> {
    let names = names(random);
    let mut groups = Groups::new(names, items, random);
    groups.many(count);
    while groups.items_left > 0 {
        groups.item(0);
    }
    match groups.random.below(8) {
        0..=1 => groups.missing(),
        2 => groups.of_built_in(),
        _ => groups.shown(),
    }
    if groups.random.one_in(3) {
        groups.missing();
    }
    groups.text
}

pub fn script(random: &mut Random) -> Vec<u8> {
    let (count, items) = (head(random), random.between(2, 24));
    grown(count, items, random)
}

/// A lookup of a name that is not defined, beside others of its group: 15.
pub fn not_defined(random: &mut Random) -> Vec<u8> {
    let names = names(random);
    let mut groups = Groups::new(names, 0, random);
    for _ in 0..groups.random.between(1, 6) {
        groups.define(0);
    }
    groups.missing();
    groups.text
}

/// Some items about one group among those of a script.
pub fn items(grower: &mut Grower, _: Place) {
    let of = grower.random.below(64);
    let names = one_group(3, of, &mut grower.random);
    let mut groups = Groups::new(names, 5, &mut grower.random);
    while groups.items_left > 0 {
        groups.item(1);
    }
    grower.text.extend(groups.text);
}
