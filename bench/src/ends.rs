//! What the end of a call costs: with more and more definitions standing, and with more and more that go or move.
use crate::added::{Added, Costs};
use crate::markdown::{grouped, tenths, Table};
use crate::names;
use crate::standing::{self, Kind};
use std::path::Path;

const CALLS: usize = 2_000;

/// Calls that make up to 64 definitions.
const LONG_CALLS: usize = 400;

/// How many definitions stand where those vary that go or move.
const FIXED: usize = 256;

/// How many go or move.
const MADE: [usize; 5] = [0, 1, 4, 16, 64];

/// What is looked up or made here; no definition that only stands is in a group of theirs.
const NAMES: [&str; 6] = ["DEF", "e", "m", "l", "b", "t"];

const KINDS: [Kind; 3] = [
    Kind {
        name: "nothing defined",
        over: |definitions| calling(definitions, "$e;"),
    },
    Kind {
        name: "one definition in the list",
        over: |definitions| calling(definitions, "$e,$DEF,t,v;;"),
    },
    Kind {
        name: "one definition in a body",
        over: |definitions| calling(definitions, "$e,$m;;"),
    },
];

pub fn tables(root: &Path, rounds: usize) -> String {
    format!(
        "So many definitions stand, and beside them a macro without text, `e`, and one that makes a definition, `m`. \
         Called are `$e;`, then `$e,$DEF,t,v;;`, where `t` goes with the list, then `$e,$m;;`, where `t` moves at the \
         end of `m` and goes at the end of `e`. The same script without the calls is run too and taken off; what is \
         left is the call with its end.\n\n\
         {}\n\
         {FIXED} definitions stand, and each call makes so many: in the list of a call, with which they go; or in a \
         body that is read for such a list, so that they move at its end before they go. The difference is the call of \
         that body and the move. \"Each\" is what a definition adds to the first row.\n\n\
         {}",
        standing::tables(&KINDS, root, rounds),
        moving(root, rounds)
    )
}

fn calling(definitions: usize, call: &str) -> Added {
    Added {
        script: standing(definitions) + "$DEF,e,;$DEF,m,<$DEF,t,v;>;",
        work: call.to_string(),
        output: "",
        times: CALLS,
        standing: definitions + 2,
    }
}

/// Definitions that only stand.
fn standing(definitions: usize) -> String {
    let names = names::apart(definitions, &NAMES);
    names.iter().map(|name| format!("$DEF,{name},;")).collect()
}

fn moving(root: &Path, rounds: usize) -> String {
    let in_list = MADE.map(|made| making(made, "$l;"));
    let in_body = MADE.map(|made| making(made, "$b;"));
    let all: Vec<Added> = in_list.into_iter().chain(in_body).collect();
    Costs::of(&all, root, rounds).tables(moved)
}

fn moved(costs: &[f64]) -> Table {
    let (in_list, in_body) = costs.split_at(MADE.len());
    let difference: Vec<f64> = in_body.iter().zip(in_list).map(|(body, list)| body - list).collect();
    let mut table = Table::new(&[
        "definitions made",
        "in the list",
        "each",
        "in a body",
        "each",
        "difference",
        "each",
    ]);
    for (at, made) in MADE.into_iter().enumerate() {
        let of_series = |costs: &[f64]| [tenths(costs[at]), each(costs[at] - costs[0], made)];
        let mut row = vec![grouped(made as u64)];
        row.extend([in_list, in_body, &difference].into_iter().flat_map(of_series));
        table.row(row);
    }
    table
}

fn each(more: f64, made: usize) -> String {
    if made == 0 {
        return String::new();
    }
    tenths(more / made as f64)
}

/// The macros `l` and `b` make the same definitions in a list, with which they go; for `b` the body of `m` makes them.
fn making(made: usize, call: &str) -> Added {
    let names = names::apart(made, &NAMES);
    let definitions: String = names.iter().map(|name| format!("$DEF,{name},v;")).collect();
    let macros = format!("$DEF,e,;$DEF,m,<{definitions}>;$DEF,l,<$e,{definitions};>;$DEF,b,<$e,$m;;>;");
    Added {
        script: standing(FIXED) + &macros,
        work: call.to_string(),
        output: "",
        times: LONG_CALLS,
        standing: FIXED + 4,
    }
}
