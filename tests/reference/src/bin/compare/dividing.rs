//! What Quot and Rem come to in a run, as its scanning tells it.
use crate::numbers::SMALLEST;
use reference::scanning::Row;

/// A call of Quot or Rem with two numbers, and how it ended: with a result, or with an outcome of its own.
pub struct Division {
    quot: bool,
    dividend: i64,
    divisor: i64,
    outcome: Option<u64>,
}

type Came = fn(&Division) -> bool;

/// What is counted beside the outcomes, by request Seven: results where they are not what document 01 had, and where
/// they are though the dividend is negative; both ends of the range; and the refusals.
pub const WAYS: [(&str, Came); 15] = [
    ("Rem of -a by b", |it| it.rem() && it.put_right() && it.divisor > 0),
    ("Rem of -a by -b", |it| it.rem() && it.put_right() && it.divisor < 0),
    ("Quot of -a by b", |it| it.quot() && it.put_right() && it.divisor > 0),
    ("Quot of -a by -b", |it| it.quot() && it.put_right() && it.divisor < 0),
    ("Rem of - multiple", |it| it.rem() && it.negative_multiple()),
    ("Quot of - multiple", |it| it.quot() && it.negative_multiple()),
    ("Rem of -1, a wheel", |it| {
        it.rem() && it.dividend == -1 && it.divisor > 1
    }),
    ("a by -b, no multiple", |it| {
        it.given() && it.dividend > 0 && it.divisor < 0 && it.rest() != 0
    }),
    ("by lowest", |it| it.given() && it.put_right() && it.divisor == SMALLEST),
    ("of lowest", |it| {
        it.given() && it.put_right() && it.dividend == SMALLEST
    }),
    ("Rem of lowest by -1", |it| it.rem() && it.lowest_by_minus_1()),
    ("24 of lowest by -1", |it| {
        it.outcome == Some(24) && it.lowest_by_minus_1()
    }),
    ("23 of -a by 0", |it| it.outcome == Some(23) && it.dividend < 0),
    ("4 at a new result", |it| it.outcome == Some(4) && it.put_right()),
    ("5 at a new result", |it| it.outcome == Some(5) && it.put_right()),
];

/// Which of the ways a run came to.
pub type Ways = [bool; WAYS.len()];

impl Division {
    /// The division that a scan came to, if one, with so many cells lent. A 4 for the own cell of `;` is not its own.
    fn of(row: &Row, cells: usize) -> Option<Division> {
        let list = row.applied()?;
        let [name @ (b"Quot" | b"Rem"), dividend, divisor, ..] = list[..] else {
            return None;
        };
        let own = row.outcome != Some(4) || row.charge() < cells;
        own.then_some(Division {
            quot: name == b"Quot",
            dividend: number(dividend)?,
            divisor: number(divisor)?,
            outcome: row.outcome,
        })
    }

    fn given(&self) -> bool {
        self.outcome.is_none()
    }

    fn quot(&self) -> bool {
        self.given() && self.quot
    }

    fn rem(&self) -> bool {
        self.given() && !self.quot
    }

    /// What is left where the quotient is cut towards zero.
    fn rest(&self) -> i64 {
        self.dividend % self.divisor
    }

    /// Whether quotient and remainder are not those that are cut towards zero.
    fn put_right(&self) -> bool {
        self.dividend < 0 && self.rest() != 0
    }

    fn negative_multiple(&self) -> bool {
        self.dividend < 0 && self.rest() == 0
    }

    fn lowest_by_minus_1(&self) -> bool {
        self.dividend == SMALLEST && self.divisor == -1
    }
}

/// An operand, which Rust reads as document 01 does.
fn number(text: &[u8]) -> Option<i64> {
    let number: i32 = std::str::from_utf8(text).ok()?.parse().ok()?;
    Some(number.into())
}

/// Marks the ways that a scan went, with so many cells lent.
pub fn follow(ways: &mut Ways, row: &Row, cells: usize) {
    let Some(division) = Division::of(row, cells) else {
        return;
    };
    for (way, (_, came)) in ways.iter_mut().zip(WAYS) {
        *way |= came(&division);
    }
}
