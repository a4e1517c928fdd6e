//! The page that shows the tables.
use std::fs;
use std::path::Path;

const BEGIN: &str = "<!-- bench/run -->\n";
const END: &str = "<!-- end -->";

/// Puts the tables between the marks of the page.
pub fn write(page: &Path, tables: &str) -> Result<(), String> {
    let text = fs::read_to_string(page).map_err(|error| format!("the page: {error}"))?;
    let text = replaced(&text, tables).ok_or("the page has no marks for the tables")?;
    fs::write(page, text).map_err(|error| format!("the page: {error}"))
}

fn replaced(text: &str, tables: &str) -> Option<String> {
    let (before, rest) = text.split_once(BEGIN)?;
    let (_, after) = rest.split_once(END)?;
    Some(format!("{before}{BEGIN}\n{tables}\n{END}{after}"))
}
