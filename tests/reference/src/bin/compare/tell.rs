//! What is printed about a script and about a difference.
use crate::check::Difference;
use crate::keys::Keys;
use crate::recording::CallDifference;
use crate::script::Script;
use reference::ends::{End, Report};
use reference::keys::number;
use reference::scanning::Lent;

fn hex(bytes: &[u8]) -> String {
    bytes.iter().map(|byte| format!("{byte:02x}")).collect()
}

pub fn script(script: &Script) {
    let text = &script.text;
    println!("  script ({} bytes): {}", text.len(), text.escape_ascii());
    println!("  in hex: {}", hex(text));
    match script.signs() {
        Some(lent) if lent.len() == 256 => println!("  signs lent, each with its kind: {}", kinds(lent)),
        Some(lent) => println!("  signs lent ({} bytes), in hex: {}", lent.len(), hex(lent)),
        None => println!("  no signs lent"),
    }
}

/// The bytes whose entry is not 0.
fn kinds(entries: &[u8]) -> String {
    let signs = (0..=u8::MAX).zip(entries).filter(|(_, &kind)| kind > 0);
    let told: Vec<String> = signs
        .map(|(byte, kind)| format!("{} {kind}", [byte].escape_ascii()))
        .collect();
    told.join("  ")
}

pub fn lent(lent: &Lent) {
    println!(
        "  lent: {} cells, {} bytes of output, {} scans",
        lent.cells, lent.output, lent.allowance
    );
    if let Some(numbers) = lent.numbers {
        println!("  and {} origins, {} rules", numbers.origins, numbers.rules);
    }
}

fn run(who: &str, report: &Report, output: &[u8]) {
    println!("  {who}: report {report}");
    println!("    output: {}", output.escape_ascii());
}

/// Where each byte came from.
fn came_from(origins: &[u32], rules: &[u32]) {
    println!("    origins: {origins:?}");
    println!("    rules: {rules:?}");
}

pub fn end(who: &str, end: &End, asks: bool) {
    run(who, &end.report, &end.output);
    if asks {
        came_from(&end.origins, &end.rules);
    }
    for standing in &end.standing {
        let (name, value) = (standing.name.escape_ascii(), standing.value.escape_ascii());
        let locked = if standing.locked { ", locked" } else { "" };
        println!(
            "    standing: {name} = {value} (defined with {} bytes{locked})",
            standing.defined
        );
    }
}

pub fn difference(of: &Script, difference: &Difference) {
    println!("  {}", difference.what);
    script(of);
    lent(&difference.run.lent);
    run("library", &difference.report, &difference.output);
    let asks = of.asks();
    if asks {
        let [origins, rules] = &difference.numbers;
        came_from(origins, rules);
    }
    end("scanning", &difference.run.scanned, asks);
    match &difference.substituted {
        Ok(Some(substituted)) => end("substitution", substituted, asks),
        Ok(None) => println!("  substitution: no end within the bounds"),
        Err(outcome) => println!("  substitution: the signs are refused with {outcome}"),
    }
}

/// Keys, and what the runs of their script are lent.
pub fn keys(keys: &Keys) {
    let (wanted, output) = (&keys.wanted, keys.output);
    println!("  wanted ({} bytes): {}", wanted.len(), wanted.escape_ascii());
    println!("  in hex: {}", hex(wanted));
    println!("  lent: {output} bytes of output");
    keys.expanded.iter().for_each(lent);
}

/// The number that comes back of a call for keys, as outcome and length, and its script.
fn made(who: &str, number: u64, script: &[u8]) {
    println!("  {who}: outcome {}, length {}", number >> 32, number as u32);
    println!("    script: {}", script.escape_ascii());
}

pub fn call(of: &Keys, difference: &CallDifference) {
    println!("  {}", difference.what);
    keys(of);
    made("library", difference.number, &difference.output);
    let script = difference.made.as_deref().unwrap_or_default();
    made("reference", number(&difference.made), script);
}
