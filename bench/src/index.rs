//! How the time of a call grows with the definitions that stand, in its own group of the index and in others.
use crate::added::Added;
use crate::names;
use crate::standing::{self, Kind};
use std::path::Path;

const CALLS: usize = 2_000;

const KINDS: [Kind; 4] = [
    Kind {
        name: "spread evenly over all groups",
        over: |definitions| calling_oldest(&names::spread(definitions)),
    },
    Kind {
        name: "the called one alone in its group",
        over: |definitions| calling_oldest(&one_apart(definitions)),
    },
    Kind {
        name: "all in one group",
        over: |definitions| calling_oldest(&names::together(definitions, "n")),
    },
    Kind {
        name: "`+`, none in its group",
        over: |definitions| adding(&names::apart(definitions, &["+"])),
    },
];

pub fn tables(root: &Path, rounds: usize) -> String {
    format!(
        "The oldest definition is called, or the built-in `+`, while so many definitions stand, in groups of the index \
         as the column says. The same script without the calls is run too and taken off.\n\n{}",
        standing::tables(&KINDS, root, rounds)
    )
}

/// A name, and the others in all other groups.
fn one_apart(definitions: usize) -> Vec<String> {
    let mut names = names::spread(1);
    let others = names::apart(definitions - 1, &[&names[0]]);
    names.extend(others);
    names
}

fn calling_oldest(names: &[String]) -> Added {
    over(names, format!("${};", names[0]), "0000")
}

fn adding(names: &[String]) -> Added {
    over(names, "$+,1,2;".to_string(), "3")
}

/// Each name is defined with its own value.
fn over(names: &[String], work: String, output: &'static str) -> Added {
    let defined = names.iter().enumerate();
    Added {
        script: defined.map(|(at, name)| format!("$DEF,{name},{at:04};")).collect(),
        work,
        output,
        times: CALLS,
        standing: names.len(),
    }
}
