//! The scanning machine of document 01: "What a run reports", "One scan" and "Charge".
//! Its lists grow as they please; the charge is summed anew from them whenever it is needed.
use crate::arithmetic::{self, Operation};
use crate::ends::{End, Report, Standing};
use crate::origins::{Numbers, Rule};
use crate::signs::{self, BuiltIn, Checked, Reading, Table};
use std::fmt;
use std::rc::Rc;

/// What a run is lent beside its text.
#[derive(Clone, Copy, Debug)]
pub struct Lent {
    pub cells: usize,
    pub output: usize,
    pub allowance: u64,
    /// By request Eight, where it is asked where each byte came from.
    pub numbers: Option<Numbers>,
}

impl Lent {
    /// What the program lends: "16,384 cells, 65,536 bytes of output and 10,000,000 scans".
    pub const PROGRAM: Lent = Lent {
        cells: 16_384,
        output: 65_536,
        allowance: 10_000_000,
        numbers: None,
    };
}

/// A run with these lent, under the standard signs, to its end.
pub fn run(text: &[u8], lent: &Lent) -> End {
    run_signs(&Ok(Table::STANDARD), text, lent)
}

/// "The caller may lend 256 bytes that take the place of the table of kinds": the run under the signs lent.
pub fn run_signs(signs: &Checked, text: &[u8], lent: &Lent) -> End {
    checked(signs, text, lent, signs::digit_or_letter, |machine| machine.scan())
}

/// The run of `run` in which `~` fetches by this reading.
pub fn run_reading(text: &[u8], lent: &Lent, reading: Reading) -> End {
    checked(&Ok(Table::STANDARD), text, lent, reading, |machine| machine.scan())
}

/// The run of `run_signs`; `each` is shown how it stands after each scan, a refused one included.
pub fn run_traced(signs: &Checked, text: &[u8], lent: &Lent, each: &mut dyn FnMut(&Row)) -> End {
    checked(signs, text, lent, signs::digit_or_letter, |machine| {
        let handled = machine.due();
        let scanned = machine.scan();
        let outcome = scanned.err();
        each(&Row {
            machine,
            handled,
            outcome,
        });
        scanned
    })
}

/// "It handles one byte, a `~` with its digit in a body, the end of a body, or the end of the text."
#[derive(Clone, Copy, Debug, PartialEq, Eq)]
pub enum Handled {
    Byte(u8),
    /// A `~` in a body with its digit or letter.
    Parameter(u8),
    /// A `~` in a body, where the next byte is neither digit nor letter `a` to `z`, or the body ends: outcome 12.
    FetchesNothing(Option<u8>),
    EndOfBody,
    EndOfText,
}

impl fmt::Display for Handled {
    fn fmt(&self, to: &mut fmt::Formatter) -> fmt::Result {
        match *self {
            Handled::Byte(byte) => write!(to, "{}", char::from(byte)),
            Handled::Parameter(byte) => write!(to, "~{}", char::from(byte)),
            Handled::FetchesNothing(_) => to.write_str("~"),
            Handled::EndOfBody => to.write_str("end of body"),
            Handled::EndOfText => to.write_str("end of text"),
        }
    }
}

/// A scan gives the next standing, or the outcome that ends the run.
type Scanned = Result<(), u64>;

/// The run, unless what is lent is refused: by 2, "text, cells or output lent over 65,536 long", then by the signs,
/// then by 35, "after 2 and the sign checks".
fn checked(
    signs: &Checked,
    text: &[u8],
    lent: &Lent,
    reading: Reading,
    one_scan: impl FnMut(&mut Machine) -> Scanned,
) -> End {
    let lengths = [text.len(), lent.cells, lent.output];
    if lengths.iter().any(|&length| length > signs::LIMIT) {
        return End::refused(2);
    }
    match signs {
        Err(outcome) => End::refused(*outcome),
        Ok(_) if lent.numbers.is_some_and(|numbers| numbers.too_short(lent.output)) => End::refused(35),
        Ok(table) => to_the_end(Machine::fresh(table, text, lent, reading), one_scan),
    }
}

fn to_the_end(mut machine: Machine, mut one_scan: impl FnMut(&mut Machine) -> Scanned) -> End {
    loop {
        // 3: "a further scan is due and the allowance has been used".
        if machine.scans == machine.lent.allowance {
            return machine.end(3);
        }
        if let Err(outcome) = one_scan(&mut machine) {
            return machine.end(outcome);
        }
    }
}

/// A live definition. One scan makes at most one, so the scan tells it from all others. LOCK's "mark goes wherever this
/// definition goes".
struct Definition {
    name: Vec<u8>,
    value: Rc<[u8]>,
    defined: usize,
    made: u64,
    locked: bool,
}

/// A call: the scan that opened it, the bytes of its name and parameters, and where commas have ended arguments.
struct Call {
    opened: u64,
    bytes: Vec<u8>,
    commas: Vec<usize>,
}

/// A call that has been applied: the scan that did so, and the body being read.
struct Body {
    call: Call,
    applied: u64,
    definition: u64,
    bytes: Rc<[u8]>,
    at: usize,
}

impl Body {
    fn name_and_rest(&self) -> (&[u8], &[u8]) {
        let name = self.call.item(0).expect("a name");
        (name, &self.bytes[self.at..])
    }
}

/// What has gone in a run so far: the calls that have ended, and the definitions that went with their lists.
#[derive(Clone, Copy, Debug, Default)]
pub struct Gone {
    pub calls: usize,
    pub definitions: usize,
}

/// A definition that was found, as it stood when it was.
#[derive(Clone, Copy, Debug, PartialEq, Eq)]
pub struct Sought {
    scan: u64,
    /// The scan that made it.
    pub made: u64,
    pub defined: usize,
    pub locked: bool,
    /// Whether its body was being read.
    pub read: bool,
}

struct Machine<'a> {
    table: &'a Table,
    text: &'a [u8],
    lent: &'a Lent,
    reading: Reading,
    read: usize,
    /// How deep the byte at hand lies in quotes. One count serves text and bodies: inside quotes only quotes are
    /// recognised, so no body begins there, and a body never ends inside quotes.
    quotes: usize,
    /// The open calls, which are collected, innermost last.
    calls: Vec<Call>,
    /// The bodies being read, innermost last.
    bodies: Vec<Body>,
    /// The live definitions, newest last.
    definitions: Vec<Definition>,
    output: Vec<u8>,
    /// For each byte of the output, what was read of the text by the end of its scan, and the rule that wrote it.
    origins: Vec<u32>,
    rules: Vec<u32>,
    scans: u64,
    most: usize,
    gone: Gone,
    /// The list that a built-in acted on last, and the scan in which it went.
    acted_on: Option<(u64, Call)>,
    /// The definition that was found last, by a call, VAL, UPDATE or LOCK.
    sought: Option<Sought>,
}

impl Call {
    /// "An open call is charged 4, each comma that ends an argument 1, each collected byte 1".
    fn charge(&self) -> usize {
        4 + self.commas.len() + self.bytes.len()
    }

    /// An item of the list: 0 is the name, and the others are the parameters.
    fn item(&self, number: usize) -> Option<&[u8]> {
        let from = match number {
            0 => 0,
            _ => *self.commas.get(number - 1)?,
        };
        let to = self.commas.get(number).copied().unwrap_or(self.bytes.len());
        Some(&self.bytes[from..to])
    }

    fn items(&self) -> Vec<&[u8]> {
        (0..).map_while(|number| self.item(number)).collect()
    }
}

impl Definition {
    /// "A live definition is charged name length + defined value length + 4"; by request Thirteen "A definition is charged
    /// 5 in place of 4".
    fn charge(&self) -> usize {
        self.name.len() + self.defined + 5
    }
}

impl<'a> Machine<'a> {
    fn fresh(table: &'a Table, text: &'a [u8], lent: &'a Lent, reading: Reading) -> Self {
        Machine {
            table,
            text,
            lent,
            reading,
            read: 0,
            quotes: 0,
            calls: Vec::new(),
            bodies: Vec::new(),
            definitions: Vec::new(),
            output: Vec::new(),
            origins: Vec::new(),
            rules: Vec::new(),
            scans: 0,
            most: 0,
            gone: Gone::default(),
            acted_on: None,
            sought: None,
        }
    }

    /// One scan. Nothing that stays is changed before the last check that may refuse it, so the definitions at the
    /// end are those "standing when the run ended, before a refused scan".
    fn scan(&mut self) -> Scanned {
        // "The byte at which a run is refused counts as read, and that scan counts."
        self.scans += 1;
        let Some(byte) = self.take() else {
            return if self.bodies.is_empty() {
                self.end_of_text()
            } else {
                self.end_of_body()
            };
        };
        if self.quotes > 0 {
            return self.quoted(byte);
        }
        match self.table.kind(byte) {
            signs::CALL => self.open(),
            signs::COMMA => self.comma(byte),
            signs::APPLY => self.apply(byte),
            signs::FETCH => self.fetch(byte),
            signs::QUOTE => {
                self.quotes = 1;
                Ok(())
            }
            signs::UNQUOTE => self.bare_unquote(),
            _ => self.copy_byte(byte),
        }
    }

    /// "Bytes come from the innermost body being read, else from the text."
    fn take(&mut self) -> Option<u8> {
        let (bytes, at) = match self.bodies.last_mut() {
            Some(body) => (&*body.bytes, &mut body.at),
            None => (self.text, &mut self.read),
        };
        let byte = *bytes.get(*at)?;
        *at += 1;
        Some(byte)
    }

    /// "The outermost pair is dropped, inner ones are copied. Inside, only quotes are recognised."
    fn quoted(&mut self, byte: u8) -> Scanned {
        match self.table.kind(byte) {
            signs::QUOTE => self.quotes += 1,
            signs::UNQUOTE => self.quotes -= 1,
            _ => {}
        }
        if self.quotes == 0 {
            return Ok(());
        }
        self.copy_byte(byte)
    }

    /// "`$` opens a call with an empty name."
    fn open(&mut self) -> Scanned {
        self.allow(4)?;
        self.calls.push(Call {
            opened: self.scans,
            bytes: Vec::new(),
            commas: Vec::new(),
        });
        Ok(())
    }

    /// A comma "ends the argument in hand of the innermost open call, also when the comma stands in a body read on
    /// behalf of that argument. With no open call it is copied."
    fn comma(&mut self, byte: u8) -> Scanned {
        if self.calls.is_empty() {
            return self.copy_byte(byte);
        }
        self.allow(1)?;
        let innermost = self.calls.last_mut().expect("an open call");
        innermost.commas.push(innermost.bytes.len());
        Ok(())
    }

    /// `;`. Checks: "10, 4 for its own cell, 15, 13, then the built-in's, then 4, then 5".
    fn apply(&mut self, byte: u8) -> Scanned {
        if !self.bodies.is_empty() && !self.call_begun_in_body() {
            return Err(10);
        }
        if self.calls.is_empty() {
            return self.copy_byte(byte);
        }
        // Charged "1 before the name is looked up", so that "most" has it though the name be unknown.
        self.allow(1)?;
        match self.found(0)? {
            Found::Definition(index) => self.begin_body(index),
            Found::BuiltIn(built_in) => self.act(built_in),
        }
    }

    /// `~`. Checks: "11, 12, 13, 4, 5".
    fn fetch(&mut self, byte: u8) -> Scanned {
        let Some(body) = self.bodies.last_mut() else {
            // "In the text, with no open call, `~` is copied as a plain byte."
            return if self.calls.is_empty() {
                self.copy_byte(byte)
            } else {
                Err(11)
            };
        };
        let next = body.bytes.get(body.at).copied();
        let number = next.and_then(self.reading).ok_or(12u64)?;
        body.at += 1;
        let parameter = body.call.item(number).ok_or(13u64)?.to_vec();
        self.copy(&parameter, Rule::Fetched)
    }

    /// An unquoted `>`, which only the text can show.
    fn bare_unquote(&mut self) -> Scanned {
        assert!(self.bodies.is_empty(), "a body never shows an unquoted >");
        Err(if self.calls.is_empty() { 1 } else { 16 })
    }

    fn end_of_text(&mut self) -> Scanned {
        // 17 is "before 18".
        Err(match (self.quotes, self.calls.len()) {
            (0, 0) => 0,
            (0, _) => 18,
            _ => 17,
        })
    }

    fn end_of_body(&mut self) -> Scanned {
        assert!(self.quotes == 0, "a body never ends inside quotes");
        if self.call_begun_in_body() {
            return Err(14);
        }
        let body = self.bodies.pop().expect("the body that ended");
        self.end_list(&body.call, body.applied);
        Ok(())
    }

    /// Whether a call begun in the innermost body is still open. Calls begun in a body within it are not, since
    /// that body would have ended inside them.
    fn call_begun_in_body(&self) -> bool {
        match (self.calls.last(), self.bodies.last()) {
            (Some(call), Some(body)) => call.opened > body.applied,
            _ => false,
        }
    }

    /// A byte that stands for itself, "copied from the text" or "copied from a body".
    fn copy_byte(&mut self, byte: u8) -> Scanned {
        let rule = if self.bodies.is_empty() {
            Rule::FromText
        } else {
            Rule::FromBody
        };
        self.copy(&[byte], rule)
    }

    /// Bytes "go to the argument being collected by the innermost open call, else to the output", whole or not.
    fn copy(&mut self, bytes: &[u8], rule: Rule) -> Scanned {
        if self.calls.is_empty() {
            self.room(bytes.len())?;
        } else {
            self.allow(bytes.len())?;
        }
        self.put(bytes, rule);
        Ok(())
    }

    /// What is collected keeps no origin: the scan that writes it later has its own. Nothing of the text is read in a
    /// scan after this.
    fn put(&mut self, bytes: &[u8], rule: Rule) {
        if let Some(call) = self.calls.last_mut() {
            return call.bytes.extend_from_slice(bytes);
        }
        self.output.extend_from_slice(bytes);
        self.origins.resize(self.output.len(), self.read as u32);
        self.rules.resize(self.output.len(), rule as u32);
    }

    /// 4: "the charge would exceed the cells lent". "Most" is the highest charge that is allowed here.
    fn allow(&mut self, more: usize) -> Scanned {
        let charge = self.charge() + more;
        if charge > self.lent.cells {
            return Err(4);
        }
        self.most = self.most.max(charge);
        Ok(())
    }

    /// 5: "the bytes of this scan would exceed the output lent".
    fn room(&self, more: usize) -> Scanned {
        if self.output.len() + more > self.lent.output {
            return Err(5);
        }
        Ok(())
    }

    /// An applied call has the cell of its `;` beside its list. "A list's charge ends with its call", hence not
    /// before its body ends.
    fn charge(&self) -> usize {
        let calls: usize = self.calls.iter().map(Call::charge).sum();
        let bodies: usize = self.bodies.iter().map(|body| body.call.charge() + 1).sum();
        let definitions: usize = self.definitions.iter().map(Definition::charge).sum();
        calls + bodies + definitions
    }

    /// "The list of name and parameters goes, with every definition made while it was collected."
    fn end_list(&mut self, call: &Call, applied: u64) {
        let before = self.definitions.len();
        self.definitions
            .retain(|definition| definition.made < call.opened || definition.made > applied);
        self.gone.calls += 1;
        self.gone.definitions += before - self.definitions.len();
    }
}

/// What a name stands for: the index of the newest definition, else a built-in.
enum Found {
    Definition(usize),
    BuiltIn(BuiltIn),
}

/// The `;` scan, its own cell allowed.
impl Machine<'_> {
    /// What an item of the list names; 15 if nothing. A definition hides a built-in of its name, as "the newest
    /// definition with that name is taken" and the built-ins are what a run starts with. None has an empty name.
    fn found(&self, number: usize) -> Result<Found, u64> {
        let name = self.item(number);
        if let Some(index) = self.definitions.iter().rposition(|definition| definition.name == name) {
            return Ok(Found::Definition(index));
        }
        let built_in = signs::BUILT_INS.iter().find(|built_in| built_in.0 == name);
        built_in.map(|built_in| Found::BuiltIn(built_in.1)).ok_or(15)
    }

    fn item(&self, number: usize) -> &[u8] {
        let call = self.calls.last().expect("the call applied");
        call.item(number).expect("an item that was supplied")
    }

    /// "Its body is read from the next scan."
    fn begin_body(&mut self, index: usize) -> Scanned {
        self.note(index);
        let call = self.calls.pop().expect("the call applied");
        let Definition { made, ref value, .. } = self.definitions[index];
        let bytes = Rc::clone(value);
        self.bodies.push(Body {
            call,
            applied: self.scans,
            definition: made,
            bytes,
            at: 0,
        });
        Ok(())
    }

    fn act(&mut self, built_in: BuiltIn) -> Scanned {
        // As many parameters as commas were supplied. "Surplus parameters are ignored."
        let supplied = self.calls.last().map_or(0, |call| call.commas.len());
        if supplied < signs::parameters_needed(built_in) {
            return Err(13);
        }
        match built_in {
            BuiltIn::Def => self.def(),
            BuiltIn::Val => self.val(),
            BuiltIn::Update => self.update(),
            BuiltIn::Arithmetic(operation) => self.reckon(operation),
            BuiltIn::Seq => self.seq(),
            BuiltIn::Size => self.size(),
            BuiltIn::If => self.choose(),
            BuiltIn::Lock => self.lock(),
        }
    }

    /// "DEF's list is exchanged for the definition", which is at least five cells cheaper: the list has the cells of
    /// `$DEF`, two commas and `;` beside name and value. So there is no 4 here and no new highest. Request Five: "33 ...
    /// for an empty name at DEF, after 13 and before anything is defined".
    fn def(&mut self) -> Scanned {
        let name = self.item(1).to_vec();
        if name.is_empty() {
            return Err(33);
        }
        let value: Rc<[u8]> = Rc::from(self.item(2));
        self.end_built_in();
        self.definitions.push(Definition {
            name,
            defined: value.len(),
            value,
            made: self.scans,
            // "A later DEF of the name makes a fresh unlocked definition."
            locked: false,
        });
        Ok(())
    }

    /// Where the definition stands that VAL, UPDATE or LOCK is called for. Checks: 15, then 19 for VAL, UPDATE or LOCK on
    /// a built-in; LOCK "has 13, 15 and 19 as VAL has".
    fn definition_named(&mut self) -> Result<usize, u64> {
        let Found::Definition(index) = self.found(1)? else {
            return Err(19);
        };
        self.note(index);
        Ok(index)
    }

    /// Notes the definition that was found, before anything is done to it.
    fn note(&mut self, index: usize) {
        let Definition {
            made, defined, locked, ..
        } = self.definitions[index];
        self.sought = Some(Sought {
            scan: self.scans,
            made,
            defined,
            locked,
            read: self.is_read(made),
        });
    }

    /// Of all bodies under way: "the innermost body being read" is one of those being read.
    fn is_read(&self, made: u64) -> bool {
        self.bodies.iter().any(|body| body.definition == made)
    }

    fn val(&mut self) -> Scanned {
        let index = self.definition_named()?;
        let value = Rc::clone(&self.definitions[index].value);
        self.give(&value, Rule::GivenByVal)
    }

    /// Checks: "15 for the name given, 19, 20, 21". The defined length stays, and the charge with it. Request Nine: "36
    /// ... for UPDATE of a locked definition, between 19 and 20".
    fn update(&mut self) -> Scanned {
        let index = self.definition_named()?;
        if self.definitions[index].locked {
            return Err(36);
        }
        if self.is_read(self.definitions[index].made) {
            return Err(20);
        }
        let value: Rc<[u8]> = Rc::from(self.item(2));
        if value.len() > self.definitions[index].defined {
            return Err(21);
        }
        self.definitions[index].value = value;
        self.end_built_in();
        Ok(())
    }

    /// "`$LOCK,name;` marks the newest definition of that name", found before the list goes. LOCK "gives no text", and
    /// "locking it again changes nothing".
    fn lock(&mut self) -> Scanned {
        let index = self.definition_named()?;
        self.definitions[index].locked = true;
        self.end_built_in();
        Ok(())
    }

    fn reckon(&mut self, operation: Operation) -> Scanned {
        let result = arithmetic::reckon(operation, self.item(1), self.item(2))?;
        self.give(&result, Rule::GivenByBuiltIn)
    }

    /// "`SEQ` gives 1 if its two parameters are the same bytes, else 0."
    fn seq(&mut self) -> Scanned {
        let same = self.item(1) == self.item(2);
        self.give(if same { b"1" } else { b"0" }, Rule::GivenByBuiltIn)
    }

    /// "`SIZE` gives the length of its parameter in decimal."
    fn size(&mut self) -> Scanned {
        let length = self.item(1).len();
        self.give(length.to_string().as_bytes(), Rule::GivenByBuiltIn)
    }

    /// "`IF` takes its parameters in pairs from the left and gives the second of the first pair whose first is exactly
    /// `1`, or nothing; an unpaired last one is ignored."
    fn choose(&mut self) -> Scanned {
        let call = self.calls.last().expect("the call applied");
        let mut first = 1;
        while let (Some(condition), Some(second)) = (call.item(first), call.item(first + 1)) {
            if condition == b"1" {
                let second = second.to_vec();
                return self.give(&second, Rule::GivenByBuiltIn);
            }
            first += 2;
        }
        self.give(b"", Rule::GivenByBuiltIn)
    }

    /// "A VAL or arithmetic result is charged before its list goes, if it is collected": beside the cell of `;`,
    /// and by a call outside the one that ends here. The results of request Four are "charged and placed like VAL's".
    fn give(&mut self, result: &[u8], rule: Rule) -> Scanned {
        if self.calls.len() > 1 {
            self.allow(1 + result.len())?;
        } else {
            self.room(result.len())?;
        }
        self.end_built_in();
        self.put(result, rule);
        Ok(())
    }

    /// "Built-ins act within the `;` scan; then their call ends as above".
    fn end_built_in(&mut self) {
        let call = self.calls.pop().expect("the call applied");
        self.end_list(&call, self.scans);
        self.acted_on = Some((self.scans, call));
    }
}

/// What is told of a run.
impl Machine<'_> {
    fn end(self, outcome: u64) -> End {
        let report = Report {
            outcome,
            read: self.read as u64,
            written: self.output.len() as u64,
            scans: self.scans,
            most: self.most as u64,
            live: self.definitions.len() as u64,
        };
        let standing = self.definitions.into_iter().rev().map(|definition| Standing {
            name: definition.name,
            value: definition.value.to_vec(),
            defined: definition.defined,
            locked: definition.locked,
        });
        End {
            report,
            output: self.output,
            origins: self.origins,
            rules: self.rules,
            standing: standing.collect(),
        }
    }

    /// What the next scan will handle.
    fn due(&self) -> Handled {
        let Some(body) = self.bodies.last() else {
            return self
                .text
                .get(self.read)
                .map_or(Handled::EndOfText, |&byte| Handled::Byte(byte));
        };
        match body.bytes[body.at..] {
            [] => Handled::EndOfBody,
            [byte, ref rest @ ..] if self.quotes == 0 && self.table.kind(byte) == signs::FETCH => {
                let next = rest.first().copied();
                next.filter(|&next| (self.reading)(next).is_some())
                    .map_or(Handled::FetchesNothing(next), Handled::Parameter)
            }
            [byte, ..] => Handled::Byte(byte),
        }
    }
}

/// How a run stands after a scan.
pub struct Row<'a> {
    machine: &'a Machine<'a>,
    pub handled: Handled,
    /// The outcome, where the run ended with this scan.
    pub outcome: Option<u64>,
}

impl Row<'_> {
    pub fn scan(&self) -> u64 {
        self.machine.scans
    }

    pub fn ended(&self) -> bool {
        self.outcome.is_some()
    }

    /// The calls being collected, outermost first, each as it would be written.
    pub fn calls(&self) -> Vec<Vec<u8>> {
        let [begins, separates] = [signs::CALL, signs::COMMA].map(|kind| self.machine.table.sign(kind));
        let written = |call: &Call| [&[begins], call.items().join(&separates).as_slice()].concat();
        self.machine.calls.iter().map(written).collect()
    }

    /// The bodies being read, outermost first: the name of the call and what remains to be read.
    pub fn bodies(&self) -> Vec<(&[u8], &[u8])> {
        self.machine.bodies.iter().map(Body::name_and_rest).collect()
    }

    /// The parameter that was to be fetched; none where it was not supplied, or the scan handled something else.
    pub fn parameter(&self) -> Option<&[u8]> {
        let Handled::Parameter(byte) = self.handled else {
            return None;
        };
        let number = (self.machine.reading)(byte)?;
        self.machine.bodies.last()?.call.item(number)
    }

    /// The list that a built-in acted on in this scan, its name first; where `;` was refused, that of its call.
    pub fn applied(&self) -> Option<Vec<&[u8]>> {
        let machine = self.machine;
        let applies = |byte| machine.quotes == 0 && machine.table.kind(byte) == signs::APPLY;
        match (&machine.acted_on, self.handled) {
            (Some((scan, call)), _) if *scan == machine.scans => Some(call.items()),
            (_, Handled::Byte(byte)) if self.ended() && applies(byte) => machine.calls.last().map(Call::items),
            _ => None,
        }
    }

    /// The list of the call whose body this scan began, its name first.
    pub fn begun(&self) -> Option<Vec<&[u8]>> {
        let body = self.machine.bodies.last();
        let begun = body.filter(|body| body.applied == self.machine.scans);
        begun.map(|body| body.call.items())
    }

    /// The definition that this scan found, by a call, VAL, UPDATE or LOCK.
    pub fn sought(&self) -> Option<Sought> {
        self.machine.sought.filter(|sought| sought.scan == self.machine.scans)
    }

    /// The scan that made the newest definition of a name.
    pub fn newest(&self, name: &[u8]) -> Option<u64> {
        let newest = self.machine.definitions.iter().rfind(|it| it.name == name);
        newest.map(|definition| definition.made)
    }

    /// The scans that made the live definitions, newest last.
    pub fn made(&self) -> impl ExactSizeIterator<Item = u64> + '_ {
        self.machine.definitions.iter().map(|definition| definition.made)
    }

    /// Whether the definition that a scan made is live.
    pub fn live(&self, made: u64) -> bool {
        self.machine.definitions.iter().any(|it| it.made == made)
    }

    /// The list of the open call, its name first, if the next scan applies it.
    pub fn due(&self) -> Option<Vec<&[u8]>> {
        let machine = self.machine;
        let applies = |byte| machine.quotes == 0 && machine.table.kind(byte) == signs::APPLY;
        match machine.due() {
            Handled::Byte(byte) if applies(byte) => machine.calls.last().map(Call::items),
            _ => None,
        }
    }

    /// Whether what is read next lies in quotes.
    pub fn in_quotes(&self) -> bool {
        self.machine.quotes > 0
    }

    /// How many calls are open, and how many commas have ended arguments of the innermost.
    pub fn open(&self) -> (usize, usize) {
        let calls = &self.machine.calls;
        (calls.len(), calls.last().map_or(0, |call| call.commas.len()))
    }

    pub fn output(&self) -> &[u8] {
        &self.machine.output
    }

    pub fn charge(&self) -> usize {
        self.machine.charge()
    }

    /// The highest charge allowed so far.
    pub fn most(&self) -> usize {
        self.machine.most
    }

    pub fn gone(&self) -> Gone {
        self.machine.gone
    }

    /// The live definitions, newest last: each name, and the length of the value that it was defined with.
    pub fn definitions(&self) -> impl ExactSizeIterator<Item = (&[u8], usize)> {
        let definitions = self.machine.definitions.iter();
        definitions.map(|definition| (&*definition.name, definition.defined))
    }
}
