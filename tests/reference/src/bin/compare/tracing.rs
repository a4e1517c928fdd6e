//! What is counted of runs that ask where each byte came from, as their scanning tells it.
use crate::lending::{numbers_too_short, LONGEST};
use crate::script::Script;
use reference::ends::{End, Sort};
use reference::origins::Numbers;
use reference::scanning::{Handled, Lent, Row};
use reference::signs::{Table, APPLY, COMMA, FETCH};

/// A scan that wrote bytes.
struct Scan<'a> {
    bytes: usize,
    /// The bodies being read, and the name of the innermost.
    depth: usize,
    body: Option<&'a [u8]>,
    in_quotes: bool,
    /// The kind of the byte handled, or the byte after a `~` that fetched.
    kind: Option<u8>,
    fetched: Option<u8>,
    /// The name of a built-in that acted.
    built_in: Option<Vec<u8>>,
    other_signs: bool,
}

impl Scan<'_> {
    /// A byte of this kind, copied outside quotes.
    fn copied(&self, kind: u8) -> bool {
        !self.in_quotes && self.kind == Some(kind) && self.built_in.is_none()
    }

    fn quoted(&self) -> bool {
        self.in_quotes && self.kind.is_some()
    }

    fn val(&self) -> bool {
        self.built_in.as_deref() == Some(b"VAL")
    }

    fn other_built_in(&self) -> bool {
        self.built_in.is_some() && !self.val()
    }

    fn of(&self, names: &[&[u8]]) -> bool {
        self.built_in.as_deref().is_some_and(|name| names.contains(&name))
    }
}

type Wrote = fn(&Scan) -> bool;

/// By a scan that wrote, after the rule.
const SCANS: [(&str, Wrote); 28] = [
    ("1, quoted", |it| it.depth == 0 && it.quoted()),
    ("1, a comma", |it| it.depth == 0 && it.copied(COMMA)),
    ("1, a semicolon", |it| it.depth == 0 && it.copied(APPLY)),
    ("1, a tilde", |it| it.depth == 0 && it.copied(FETCH)),
    ("2, quoted", |it| it.depth > 0 && it.quoted()),
    ("2, a comma", |it| it.depth > 0 && it.copied(COMMA)),
    ("2, body in a body", |it| {
        it.depth > 1 && it.kind.is_some() && it.built_in.is_none()
    }),
    ("2, VAL hidden", |it| {
        it.body == Some(b"VAL") && it.built_in.is_none() && it.kind.is_some()
    }),
    ("3, the name", |it| it.fetched == Some(b'0')),
    ("3, past nine", |it| {
        it.fetched.is_some_and(|byte| byte.is_ascii_lowercase())
    }),
    ("3, several bytes", |it| it.fetched.is_some() && it.bytes > 1),
    ("3, body in a body", |it| it.fetched.is_some() && it.depth > 1),
    ("3, VAL hidden", |it| it.body == Some(b"VAL") && it.fetched.is_some()),
    ("3, other signs", |it| it.fetched.is_some() && it.other_signs),
    ("4, in the text", |it| it.val() && it.depth == 0),
    ("4, in a body", |it| it.val() && it.depth > 0),
    ("4, body in a body", |it| it.val() && it.depth > 1),
    ("4, several bytes", |it| it.val() && it.bytes > 1),
    ("4, other signs", |it| it.val() && it.other_signs),
    ("5, in the text", |it| it.other_built_in() && it.depth == 0),
    ("5, in a body", |it| it.other_built_in() && it.depth > 0),
    ("5, body in a body", |it| it.other_built_in() && it.depth > 1),
    ("5, several bytes", |it| it.other_built_in() && it.bytes > 1),
    ("5, arithmetic", |it| it.of(&[b"+", b"-", b"*", b"Quot", b"Rem"])),
    ("5, SEQ", |it| it.of(&[b"SEQ"])),
    ("5, SIZE", |it| it.of(&[b"SIZE"])),
    ("5, IF", |it| it.of(&[b"IF"])),
    ("5, other signs", |it| it.other_built_in() && it.other_signs),
];

/// The scans of a run that wrote.
#[derive(Default)]
pub struct Scans {
    written: usize,
    came: [bool; SCANS.len()],
}

impl Scans {
    pub fn follow(&mut self, script: &Script, row: &Row) {
        let before = std::mem::replace(&mut self.written, row.output().len());
        let (Ok(table), true) = (script.checked(), self.written > before) else {
            return;
        };
        let scan = scan(table, row, self.written - before);
        for (came, (_, wrote)) in self.came.iter_mut().zip(SCANS) {
            *came |= wrote(&scan);
        }
    }
}

fn scan<'a>(table: &Table, row: &'a Row, bytes: usize) -> Scan<'a> {
    let bodies = row.bodies();
    let (kind, fetched) = match row.handled {
        Handled::Byte(byte) => (Some(table.kind(byte)), None),
        Handled::Parameter(byte) => (None, Some(byte)),
        _ => (None, None),
    };
    let applies = kind == Some(APPLY) && !row.in_quotes();
    let list = if applies { row.applied() } else { None };
    Scan {
        bytes,
        depth: bodies.len(),
        body: bodies.last().map(|body| body.0),
        in_quotes: row.in_quotes(),
        kind,
        fetched,
        built_in: list.map(|list| list[0].to_vec()),
        other_signs: *table != Table::STANDARD,
    }
}

/// A run with runs of numbers lent.
struct Run<'a> {
    lent: &'a Lent,
    numbers: Numbers,
    end: &'a End,
}

impl Run<'_> {
    fn came_to(&self, outcome: u64) -> bool {
        self.end.report.outcome == outcome
    }

    fn accepted(&self) -> bool {
        !self.end.report.is(Sort::Refusal)
    }

    /// Whether 35 would come if nothing came before it.
    fn too_short(&self) -> bool {
        numbers_too_short(self.lent)
    }

    /// How many numbers are lacking of each.
    fn lack(&self) -> [usize; 2] {
        let Numbers { origins, rules } = self.numbers;
        [origins, rules].map(|length| self.lent.output.saturating_sub(length))
    }

    fn longest(&self) -> usize {
        self.numbers.origins.max(self.numbers.rules)
    }

    fn exact(&self) -> bool {
        [self.numbers.origins, self.numbers.rules] == [self.lent.output; 2]
    }

    fn has(&self, rule: u32) -> bool {
        self.end.rules.contains(&rule)
    }

    fn wrote(&self) -> bool {
        !self.end.rules.is_empty()
    }

    fn last_origin(&self) -> u32 {
        self.end.origins.last().copied().unwrap_or_default()
    }
}

type Came = fn(&Run) -> bool;

/// By what was lent and the end, each with whether it must occur often enough.
const RUNS: [(&str, bool, Came); 27] = [
    ("35 by origins", true, |it| it.came_to(35) && it.lack()[1] == 0),
    ("35 by rules", true, |it| it.came_to(35) && it.lack()[0] == 0),
    ("35 by both", true, |it| it.came_to(35) && !it.lack().contains(&0)),
    ("35 by one number", true, |it| {
        it.came_to(35) && it.lack().into_iter().sum::<usize>() == 1
    }),
    ("35 with no number", true, |it| it.came_to(35) && it.longest() == 0),
    ("2 before 35", true, |it| it.came_to(2) && it.too_short()),
    ("30 before 35", true, |it| it.came_to(30) && it.too_short()),
    ("31 before 35", true, |it| it.came_to(31) && it.too_short()),
    ("32 before 35", true, |it| it.came_to(32) && it.too_short()),
    ("numbers exact", true, |it| {
        it.accepted() && it.exact() && it.lent.output > 0
    }),
    ("numbers more", true, |it| {
        it.accepted() && it.longest() > it.lent.output
    }),
    ("numbers over 65536", true, |it| it.accepted() && it.longest() > LONGEST),
    ("no output, no number", true, |it| {
        it.accepted() && it.lent.output + it.longest() == 0
    }),
    ("rule 1", true, |it| it.has(1)),
    ("rule 2", true, |it| it.has(2)),
    ("rule 3", true, |it| it.has(3)),
    ("rule 4", true, |it| it.has(4)),
    ("rule 5", true, |it| it.has(5)),
    ("rules 1 to 5", true, |it| (1..=5).all(|rule| it.has(rule))),
    ("cut off by 3", true, |it| it.came_to(3) && it.wrote()),
    ("cut off by 4", true, |it| it.came_to(4) && it.wrote()),
    ("cut off by 5", true, |it| it.came_to(5) && it.wrote()),
    ("cut off by a fault", true, |it| {
        it.end.report.is(Sort::Fault) && it.wrote()
    }),
    ("origin over 255", true, |it| it.last_origin() > 255),
    ("origin over 32767", false, |it| it.last_origin() > 32_767),
    ("origin 65536", false, |it| it.last_origin() > 65_535),
    ("2, all over 65536", false, |it| {
        it.came_to(2) && it.lent.output.min(it.longest()) > LONGEST
    }),
];

/// How many ways are counted.
pub const WAYS: usize = RUNS.len() + SCANS.len();

/// Which of the ways a run came to.
pub type Ways = [bool; WAYS];

pub fn label(way: usize) -> &'static str {
    match way.checked_sub(RUNS.len()) {
        None => RUNS[way].0,
        Some(scan) => SCANS[scan].0,
    }
}

pub fn asked(way: usize) -> bool {
    RUNS.get(way).is_none_or(|run| run.1)
}

/// The ways of a run; none where no runs of numbers are lent.
pub fn ways(lent: &Lent, end: &End, scans: &Scans) -> Ways {
    let mut ways = [false; WAYS];
    let Some(numbers) = lent.numbers else {
        return ways;
    };
    let run = Run { lent, numbers, end };
    for (way, (_, _, came)) in ways.iter_mut().zip(RUNS) {
        *way = came(&run);
    }
    ways[RUNS.len()..].copy_from_slice(&scans.came);
    ways
}
