//! The program `reference`: runs the script on standard input by scanning or by substitution, shows each scan or where
//! each byte came from, or makes the script for the keys on standard input.
use reference::ends::{End, Sort};
use reference::keys;
use reference::scanning::{self, Handled, Lent, Row};
use reference::signs::{Table, LIMIT};
use reference::substitution::{self, Bounds};
use std::io::{self, Read, Write};
use std::process::ExitCode;

const USAGE: &str =
    "usage: reference scan [CELLS OUTPUT ALLOWANCE] | substitute | trace | origins   (script on standard input)
       reference script [OUTPUT]   (wanted bytes on standard input)";

/// Far beyond what a run is lent, so that what is given up has no end that a run could come to.
const BOUNDS: Bounds = Bounds {
    depth: 100_000,
    scans: 10_000_000,
    charge: 1 << 24,
    output: 1 << 24,
};

/// For the nested calls of substitution.
const STACK: usize = 1 << 30;

fn main() -> ExitCode {
    let arguments: Vec<String> = std::env::args().skip(1).collect();
    let arguments: Vec<&str> = arguments.iter().map(String::as_str).collect();
    let done = match arguments[..] {
        ["scan"] => scan(&Lent::PROGRAM),
        ["scan", cells, output, allowance] => match lent(cells, output, allowance) {
            Some(lent) => scan(&lent),
            None => return usage(),
        },
        ["substitute"] => substitute(),
        ["trace"] => trace(),
        ["origins"] => origins(),
        ["script"] => script_for(LIMIT),
        ["script", output] => match output.parse() {
            Ok(output) => script_for(output),
            Err(_) => return usage(),
        },
        _ => return usage(),
    };
    match done {
        Ok(()) => ExitCode::SUCCESS,
        Err(error) => {
            eprintln!("{error}");
            ExitCode::FAILURE
        }
    }
}

fn usage() -> ExitCode {
    eprintln!("{USAGE}");
    ExitCode::from(2)
}

fn lent(cells: &str, output: &str, allowance: &str) -> Option<Lent> {
    Some(Lent {
        cells: cells.parse().ok()?,
        output: output.parse().ok()?,
        allowance: allowance.parse().ok()?,
        numbers: None,
    })
}

/// Standard input, but no more than one byte over the limit, which is reported as 2.
fn input() -> io::Result<Vec<u8>> {
    let mut text = Vec::new();
    io::stdin().lock().take(LIMIT as u64 + 1).read_to_end(&mut text)?;
    Ok(text)
}

fn scan(lent: &Lent) -> io::Result<()> {
    tell(&scanning::run(&input()?, lent))
}

fn substitute() -> io::Result<()> {
    let text = input()?;
    if text.len() > LIMIT {
        // Substitution has no outcome 2: the program reports it, as it does for a run, and with all counts 0.
        return tell(&scanning::run(&text, &Lent::PROGRAM));
    }
    let value = std::thread::Builder::new().stack_size(STACK);
    let value = value.spawn(move || substitution::substitute(&text, &Table::STANDARD, &BOUNDS))?;
    match value.join().expect("substitution returns") {
        Some(end) => tell(&end),
        None => {
            eprintln!("no end within the bounds");
            Ok(())
        }
    }
}

/// "On 0 or 1 it writes the output to standard output. It always writes one line to standard error".
fn tell(end: &End) -> io::Result<()> {
    if end.report.is(Sort::Finish) {
        let mut to = io::stdout().lock();
        to.write_all(&end.output)?;
        to.flush()?;
    }
    eprintln!("{}", end.report);
    Ok(())
}

/// The script goes to standard output, its outcome and length to standard error.
fn script_for(output: usize) -> io::Result<()> {
    let made = keys::script_for(&Ok(Table::STANDARD), &input()?, output);
    let outcome = made.as_ref().err().copied().unwrap_or_default();
    let script = made.unwrap_or_default();
    let mut to = io::stdout().lock();
    to.write_all(&script)?;
    to.flush()?;
    eprintln!("{outcome} {}", script.len());
    Ok(())
}

/// The table goes to standard output and the report to standard error.
fn trace() -> io::Result<()> {
    let text = input()?;
    let mut to = io::BufWriter::new(io::stdout().lock());
    writeln!(to, "| scan | byte | open calls | bodies | output | charge |")?;
    writeln!(to, "|---:|---|---|---|---|---:|")?;
    let mut written = Ok(());
    let end = scanning::run_traced(&Ok(Table::STANDARD), &text, &Lent::PROGRAM, &mut |row| {
        if written.is_ok() {
            written = writeln!(to, "{}", table_row(row));
        }
    });
    written?;
    to.flush()?;
    eprintln!("{}", end.report);
    Ok(())
}

/// For each byte written its origin and its rule, as a table on standard output; the report goes to standard error.
fn origins() -> io::Result<()> {
    let end = scanning::run(&input()?, &Lent::PROGRAM);
    let mut to = io::BufWriter::new(io::stdout().lock());
    writeln!(to, "| byte | origin | rule |")?;
    writeln!(to, "|---|---:|---:|")?;
    for (byte, (origin, rule)) in end.output.iter().zip(end.origins.iter().zip(&end.rules)) {
        writeln!(to, "| {} | {origin} | {rule} |", span(&[*byte]))?;
    }
    to.flush()?;
    eprintln!("{}", end.report);
    Ok(())
}

fn table_row(row: &Row) -> String {
    let handled = match row.handled {
        Handled::Byte(byte) => span(&[byte]),
        Handled::Parameter(byte) => span(&[b'~', byte]),
        Handled::FetchesNothing(_) => span(b"~"),
        end => end.to_string(),
    };
    let calls: Vec<String> = row.calls().iter().map(|call| span(call)).collect();
    let body = |&(name, rest): &(&[u8], &[u8])| span(&[name, b":", rest].concat());
    let bodies: Vec<String> = row.bodies().iter().map(body).collect();
    let cells = [
        row.scan().to_string(),
        handled,
        calls.join(" "),
        bodies.join(" "),
        span(row.output()),
        row.charge().to_string(),
    ];
    format!("| {} |", cells.join(" | "))
}

/// Bytes as a code span that stays within its cell of the table; nothing for no bytes.
fn span(bytes: &[u8]) -> String {
    if bytes.is_empty() {
        return String::new();
    }
    let mut shown = String::new();
    for &byte in bytes {
        match byte {
            b'\n' => shown.push_str("\\n"),
            b'\\' => shown.push_str("\\\\"),
            b'|' => shown.push_str("\\|"),
            b' '..=b'~' => shown.push(char::from(byte)),
            _ => shown.push_str(&format!("\\x{byte:02x}")),
        }
    }
    // A span is closed by as many backticks as opened it, so it is opened by more than stand in it together.
    let longest = shown.split(|sign| sign != '`').map(str::len).max().unwrap_or(0);
    let fence = "`".repeat(longest + 1);
    // One space at each side is taken off again, except from spaces alone.
    if shown.contains(|sign| sign != ' ') && (shown.starts_with(['`', ' ']) || shown.ends_with(['`', ' '])) {
        shown = format!(" {shown} ");
    }
    format!("{fence}{shown}{fence}")
}
