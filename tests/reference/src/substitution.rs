//! The recursive substitution of document 01: the value of a text, under the definitions and, in a body, the
//! parameters, is a list of pieces. It knows nothing of the scanning machine.
use crate::arithmetic;
use crate::ends::{End, Report, Standing};
use crate::origins::Rule;
use crate::signs::{self, BuiltIn, Table};
use std::rc::Rc;

/// Where substitution gives up. The depth is document 01's allowance; the others let a script without end return.
#[derive(Clone, Copy, Debug)]
pub struct Bounds {
    pub depth: usize,
    pub scans: u64,
    pub charge: usize,
    pub output: usize,
}

/// The end of a text under a table of kinds; none if a bound was passed before it.
pub fn substitute(text: &[u8], table: &Table, bounds: &Bounds) -> Option<End> {
    let mut handed = Handed::at_first(table, bounds);
    let known = Known {
        place: Place::Whole,
        collected: false,
        body: None,
        depth: 0,
    };
    let outcome = match handed.value(&mut Stretch::of(text), known) {
        Ok(_) => 0,
        Err(Stop::Outcome(outcome)) => outcome,
        Err(Stop::NoEnd) => return None,
    };
    Some(handed.end(outcome))
}

/// Why a value is not come to: the end at a bare `>` or a fault, or no end within the bounds.
enum Stop {
    Outcome(u64),
    NoEnd,
}

/// A value: pieces, which bare commas divide.
type Pieces = Vec<Vec<u8>>;

/// The text or a body, and how far it has been read.
struct Stretch<'a> {
    bytes: &'a [u8],
    at: usize,
}

impl<'a> Stretch<'a> {
    fn of(bytes: &'a [u8]) -> Self {
        Stretch { bytes, at: 0 }
    }
}

/// What the value at hand is the value of.
#[derive(Clone, Copy, PartialEq, Eq)]
enum Place {
    /// The text or a body, to its end.
    Whole,
    /// The name and the parameters of a call, to its `;`.
    List,
}

/// What is known while a value is made: "whether a call is being collected and, in a body, the parameters and
/// which bodies are being read".
#[derive(Clone, Copy)]
struct Known<'a> {
    place: Place,
    collected: bool,
    body: Option<&'a Body<'a>>,
    depth: usize,
}

impl Known<'_> {
    /// The rule of a byte that stands for itself here.
    fn copying(&self) -> Rule {
        match self.body {
            Some(_) => Rule::FromBody,
            None => Rule::FromText,
        }
    }
}

/// A body being read: the serial number of its definition, the parameters, and the body that it is read within.
struct Body<'a> {
    serial: u64,
    parameters: &'a [Vec<u8>],
    within: Option<&'a Body<'a>>,
}

enum Value {
    BuiltIn(BuiltIn),
    Text(Rc<[u8]>),
}

/// "Substitution's definition lists carry the mark" of LOCK.
struct Definition {
    name: Vec<u8>,
    value: Value,
    defined: usize,
    serial: u64,
    locked: bool,
}

impl Definition {
    /// "name length + defined value length + 4", by request Thirteen "5 in place of 4"; "Built-ins cost nothing."
    fn cost(&self) -> usize {
        match self.value {
            Value::BuiltIn(_) => 0,
            Value::Text(_) => self.name.len() + self.defined + 5,
        }
    }
}

/// What a call comes to: the value of the body or a built-in's text, or DEF's definition.
enum Made {
    Pieces(Pieces),
    Definition(Definition),
}

/// A byte of the output, the bytes of the text read when it came, and its rule.
struct Written {
    byte: u8,
    read: u32,
    rule: Rule,
}

/// What is handed on from stretch to stretch, with the table of kinds and the bounds, which stay.
struct Handed<'b> {
    table: &'b Table,
    bounds: &'b Bounds,
    /// The newest stands last.
    definitions: Vec<Definition>,
    output: Vec<Written>,
    read: u64,
    scans: u64,
    charge: usize,
    most: usize,
    /// How many definitions were ever made.
    serial: u64,
}

fn fault<T>(outcome: u64) -> Result<T, Stop> {
    Err(Stop::Outcome(outcome))
}

/// A value's "first piece joins the piece in hand".
fn join(pieces: &mut Pieces, value: Pieces) {
    let mut value = value.into_iter();
    let first = value.next().expect("a value has a first piece");
    let in_hand = pieces.last_mut().expect("a piece in hand");
    if in_hand.is_empty() {
        *in_hand = first;
    } else {
        in_hand.extend_from_slice(&first);
    }
    pieces.extend(value);
}

/// What the list of an applied call is charged: the call, its commas, its bytes and its `;`.
fn cost_of_list(list: &Pieces) -> usize {
    let bytes: usize = list.iter().map(Vec::len).sum();
    4 + (list.len() - 1) + bytes + 1
}

/// What IF gives: "the second of the first pair whose first is exactly `1`, or nothing".
fn chosen(parameters: &[Vec<u8>]) -> &[u8] {
    let mut pairs = parameters.chunks_exact(2);
    pairs.find(|pair| pair[0] == b"1").map_or(&[], |pair| &pair[1])
}

/// The value of a stretch.
impl Handed<'_> {
    /// The value of what is left of a stretch, to its end or, for a list, to the `;` that applies the call.
    fn value(&mut self, from: &mut Stretch, known: Known) -> Result<Pieces, Stop> {
        let mut pieces = vec![Vec::new()];
        loop {
            let Some(byte) = self.next(from, known)? else {
                return ended(known, pieces);
            };
            match self.table.kind(byte) {
                signs::CALL => join(&mut pieces, self.call(from, known)?),
                signs::QUOTE => self.quoted(from, known, &mut pieces)?,
                signs::UNQUOTE => {
                    assert!(known.body.is_none(), "a body never shows an unquoted >");
                    return fault(if known.collected { 16 } else { 1 });
                }
                signs::COMMA if known.collected => {
                    // "Bare commas divide pieces while a call is collected, in a body too".
                    self.rise(1)?;
                    pieces.push(Vec::new());
                }
                signs::APPLY if known.place == Place::List => return Ok(pieces),
                signs::APPLY if known.body.is_some() => return fault(10),
                signs::FETCH if known.body.is_some() => self.parameter(from, known, &mut pieces)?,
                signs::FETCH if known.collected => return fault(11),
                // "Where no call is collected, ... `;` and `~` in the text are plain."
                _ => self.add(&[byte], known.copying(), known, &mut pieces)?,
            }
        }
    }

    /// The next byte of a stretch, or its end; each is a scan.
    fn next(&mut self, from: &mut Stretch, known: Known) -> Result<Option<u8>, Stop> {
        self.scans += 1;
        if self.scans > self.bounds.scans {
            return Err(Stop::NoEnd);
        }
        let Some(&byte) = from.bytes.get(from.at) else {
            return Ok(None);
        };
        from.at += 1;
        if known.body.is_none() {
            self.read += 1;
        }
        Ok(Some(byte))
    }

    /// What follows a `<`, up to its `>`: it loses one layer.
    fn quoted(&mut self, from: &mut Stretch, known: Known, pieces: &mut Pieces) -> Result<(), Stop> {
        let mut inner = 0usize;
        loop {
            let Some(byte) = self.next(from, known)? else {
                assert!(known.body.is_none(), "a body never ends inside quotes");
                return fault(17);
            };
            match self.table.kind(byte) {
                signs::UNQUOTE if inner == 0 => return Ok(()),
                signs::UNQUOTE => inner -= 1,
                signs::QUOTE => inner += 1,
                _ => {}
            }
            self.add(&[byte], known.copying(), known, pieces)?;
        }
    }

    /// "`~r` is the parameter", and one scan with its digit or letter. Checks: 12, 13.
    fn parameter(&mut self, from: &mut Stretch, known: Known, pieces: &mut Pieces) -> Result<(), Stop> {
        let parameters = known.body.map_or(&[][..], |body| body.parameters);
        let next = from.bytes.get(from.at).copied();
        let Some(number) = next.and_then(signs::digit_or_letter) else {
            return fault(12);
        };
        from.at += 1;
        match parameters.get(number) {
            Some(parameter) => self.add(parameter, Rule::Fetched, known, pieces),
            None => fault(13),
        }
    }

    /// Bytes to the piece in hand; "where no call is collected, bytes go to the output".
    fn add(&mut self, bytes: &[u8], rule: Rule, known: Known, pieces: &mut Pieces) -> Result<(), Stop> {
        if known.collected {
            self.rise(bytes.len())?;
            pieces.last_mut().expect("a piece in hand").extend_from_slice(bytes);
            return Ok(());
        }
        if self.output.len() + bytes.len() > self.bounds.output {
            return Err(Stop::NoEnd);
        }
        let read = self.read as u32;
        self.output
            .extend(bytes.iter().map(|&byte| Written { byte, read, rule }));
        Ok(())
    }

    fn rise(&mut self, by: usize) -> Result<(), Stop> {
        self.charge += by;
        if self.charge > self.bounds.charge {
            return Err(Stop::NoEnd);
        }
        self.most = self.most.max(self.charge);
        Ok(())
    }
}

/// The end of a stretch outside quotes.
fn ended(known: Known, pieces: Pieces) -> Result<Pieces, Stop> {
    match (known.place, known.body) {
        (Place::Whole, _) => Ok(pieces),
        (Place::List, Some(_)) => fault(14),
        (Place::List, None) => fault(18),
    }
}

/// The value of a call.
impl Handed<'_> {
    /// "A call is the value of its name and parameters in order, each under the definitions left so far, then the
    /// value of the found body; afterwards definitions from its name and parameters are dropped."
    fn call(&mut self, from: &mut Stretch, known: Known) -> Result<Pieces, Stop> {
        // "A depth allowance bounds nested calls": those in a call's list and in its body are one deeper than it.
        let depth = known.depth + 1;
        if depth > self.bounds.depth {
            return Err(Stop::NoEnd);
        }
        self.rise(4)?;
        let before = self.definitions.len();
        let list = self.value(
            from,
            Known {
                place: Place::List,
                collected: true,
                body: known.body,
                depth,
            },
        )?;
        let collected = self.definitions.len();
        self.rise(1)?;
        let made = self.applied(&list, Known { depth, ..known })?;
        self.charge -= cost_of_list(&list);
        let dropped: usize = self
            .definitions
            .drain(before..collected)
            .map(|definition| definition.cost())
            .sum();
        self.charge -= dropped;
        match made {
            Made::Pieces(pieces) => Ok(pieces),
            Made::Definition(definition) => self.define(definition),
        }
    }

    /// "DEF's list is exchanged for the definition": the list's charge has ended before this one begins.
    fn define(&mut self, definition: Definition) -> Result<Pieces, Stop> {
        self.rise(definition.cost())?;
        self.definitions.push(definition);
        Ok(vec![Vec::new()])
    }

    /// What a complete list comes to, where the call stands.
    fn applied(&mut self, list: &Pieces, known: Known) -> Result<Made, Stop> {
        let found = self.found(&list[0])?;
        let Definition { value, serial, .. } = &self.definitions[found];
        match value {
            &Value::BuiltIn(built_in) => self.built_in(built_in, list, known),
            Value::Text(text) => {
                let (text, serial) = (Rc::clone(text), *serial);
                let body = Body {
                    serial,
                    parameters: list,
                    within: known.body,
                };
                let known = Known {
                    place: Place::Whole,
                    body: Some(&body),
                    ..known
                };
                self.value(&mut Stretch::of(&text), known).map(Made::Pieces)
            }
        }
    }

    /// Where the newest definition with a name stands; 15 if none does.
    fn found(&self, name: &[u8]) -> Result<usize, Stop> {
        match self.definitions.iter().rposition(|definition| definition.name == name) {
            Some(found) => Ok(found),
            None => fault(15),
        }
    }

    /// "A built-in's result stands in place of the body's value."
    fn built_in(&mut self, built_in: BuiltIn, list: &Pieces, known: Known) -> Result<Made, Stop> {
        // The name is not a parameter.
        if list.len() <= signs::parameters_needed(built_in) {
            return fault(13);
        }
        match built_in {
            BuiltIn::Def => self.definition(&list[1], &list[2]),
            BuiltIn::Val => {
                let found = self.found(&list[1])?;
                match &self.definitions[found].value {
                    Value::BuiltIn(_) => fault(19),
                    Value::Text(text) => self.result(&Rc::clone(text), Rule::GivenByVal, known),
                }
            }
            BuiltIn::Update => self.update(&list[1], &list[2], known),
            BuiltIn::Arithmetic(operation) => match arithmetic::reckon(operation, &list[1], &list[2]) {
                Ok(number) => self.result(&number, Rule::GivenByBuiltIn, known),
                Err(outcome) => fault(outcome),
            },
            BuiltIn::Seq => {
                let same = if list[1] == list[2] { b"1" } else { b"0" };
                self.result(same, Rule::GivenByBuiltIn, known)
            }
            BuiltIn::Size => {
                let length = format!("{}", list[1].len());
                self.result(length.as_bytes(), Rule::GivenByBuiltIn, known)
            }
            BuiltIn::If => self.result(chosen(&list[1..]), Rule::GivenByBuiltIn, known),
            BuiltIn::Lock => self.lock(&list[1]),
        }
    }

    /// DEF's definition, which stands when its list has gone. "DEF is to turn an empty name away": 33, by request Five.
    fn definition(&mut self, name: &[u8], value: &[u8]) -> Result<Made, Stop> {
        if name.is_empty() {
            return fault(33);
        }
        self.serial += 1;
        Ok(Made::Definition(Definition {
            name: name.to_vec(),
            value: Value::Text(Rc::from(value)),
            defined: value.len(),
            serial: self.serial,
            locked: false,
        }))
    }

    /// A result, charged if it is collected; its list is still there. So are the results of request Four.
    fn result(&mut self, bytes: &[u8], rule: Rule, known: Known) -> Result<Made, Stop> {
        let mut pieces = vec![Vec::new()];
        self.add(bytes, rule, known, &mut pieces)?;
        Ok(Made::Pieces(pieces))
    }

    /// LOCK marks the definition where it stands. Checks: 15, 19. "LOCK ... gives no text".
    fn lock(&mut self, name: &[u8]) -> Result<Made, Stop> {
        let found = self.found(name)?;
        let definition = &mut self.definitions[found];
        if matches!(definition.value, Value::BuiltIn(_)) {
            return fault(19);
        }
        definition.locked = true;
        Ok(Made::Pieces(vec![Vec::new()]))
    }

    /// "UPDATE alters the value where the definition stands." Checks: 15, 19, 36 for a locked definition, 20, 21.
    fn update(&mut self, name: &[u8], value: &[u8], known: Known) -> Result<Made, Stop> {
        let found = self.found(name)?;
        let definition = &mut self.definitions[found];
        let Value::Text(standing) = &mut definition.value else {
            return fault(19);
        };
        if definition.locked {
            return fault(36);
        }
        let mut reading = known.body;
        while let Some(body) = reading {
            if body.serial == definition.serial {
                return fault(20);
            }
            reading = body.within;
        }
        if value.len() > definition.defined {
            return fault(21);
        }
        *standing = Rc::from(value);
        Ok(Made::Pieces(vec![Vec::new()]))
    }
}

/// The beginning and the end.
impl<'b> Handed<'b> {
    /// "the definitions a run starts with (here the built-ins alone)"
    fn at_first(table: &'b Table, bounds: &'b Bounds) -> Self {
        let built_ins = signs::BUILT_INS.iter().map(|&(name, built_in)| Definition {
            name: name.to_vec(),
            value: Value::BuiltIn(built_in),
            defined: 0,
            serial: 0,
            locked: false,
        });
        let definitions = built_ins.collect();
        Handed {
            table,
            bounds,
            definitions,
            output: Vec::new(),
            read: 0,
            scans: 0,
            charge: 0,
            most: 0,
            serial: 0,
        }
    }

    fn end(self, outcome: u64) -> End {
        let standing: Vec<Standing> = self.definitions.into_iter().rev().filter_map(stand).collect();
        let report = Report {
            outcome,
            read: self.read,
            written: self.output.len() as u64,
            scans: self.scans,
            most: self.most as u64,
            live: standing.len() as u64,
        };
        End {
            report,
            output: self.output.iter().map(|written| written.byte).collect(),
            origins: self.output.iter().map(|written| written.read).collect(),
            rules: self.output.iter().map(|written| written.rule as u32).collect(),
            standing,
        }
    }
}

/// A definition as it stands at the end, built-ins aside.
fn stand(definition: Definition) -> Option<Standing> {
    let Value::Text(text) = definition.value else {
        return None;
    };
    Some(Standing {
        name: definition.name,
        value: text.to_vec(),
        defined: definition.defined,
        locked: definition.locked,
    })
}
