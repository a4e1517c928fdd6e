//! Tables in GitHub's Markdown, and numbers in their cells.
use std::fmt;

/// What stands in place of m4's time where there is no m4.
pub const ABSENT: &str = "not installed";

/// The first column holds words, the others numbers.
pub struct Table {
    rows: Vec<Vec<String>>,
}

impl Table {
    pub fn new(header: &[&str]) -> Table {
        let names = header.iter().map(|name| name.to_string()).collect();
        let rules = (0..header.len())
            .map(|at| if at == 0 { "---" } else { "---:" }.to_string())
            .collect();
        Table {
            rows: vec![names, rules],
        }
    }

    pub fn row(&mut self, cells: Vec<String>) {
        self.rows.push(cells);
    }
}

impl fmt::Display for Table {
    fn fmt(&self, out: &mut fmt::Formatter) -> fmt::Result {
        self.rows
            .iter()
            .try_for_each(|row| writeln!(out, "| {} |", row.join(" | ")))
    }
}

/// A count with its thousands set apart.
pub fn grouped(count: u64) -> String {
    let digits = count.to_string();
    let mut text = String::new();
    for (at, digit) in digits.chars().enumerate() {
        if at > 0 && (digits.len() - at).is_multiple_of(3) {
            text.push(',');
        }
        text.push(digit);
    }
    text
}

pub fn milliseconds(seconds: f64) -> String {
    format!("{:.3}", seconds * 1e3)
}

pub fn tenths(number: f64) -> String {
    format!("{number:.1}")
}

/// The first as a multiple of the second; none where one of them is lost in what was taken off.
pub fn ratio(first: f64, second: f64) -> String {
    if first > 0.0 && second > 0.0 {
        format!("{:.2}", first / second)
    } else {
        "-".to_string()
    }
}
