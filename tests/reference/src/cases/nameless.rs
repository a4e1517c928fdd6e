//! Document 02's request Five: no macro without a name, against both halves, with reports worked out by hand.
use super::{
    after_each_scan, charges, check, check_allowance, check_lent, check_outcomes, end, is, line, standing, text,
    traced, BOUNDS,
};
use crate::ends::{sort, End, Sort};
use crate::scanning::{run, run_signs, Lent, Row};
use crate::signs::Table;
use crate::substitution::substitute;

#[test]
fn table_of_request_five() {
    check(&[
        ("$DEF,,x;", "33 8 0 8 11 0", ""),
        ("$;", "15 2 0 2 5 0", ""),
        ("$DEF,;", "13 6 0 6 9 0", ""),
        ("$VAL,;", "15 6 0 6 9 0", ""),
        ("$UPDATE,,x;", "15 11 0 11 14 0", ""),
        ("$DEF,e,;ab$DEF,$e;,x;", "33 21 2 22 20 1", "ab"),
    ]);
}

/// "a fault of the text (10 to 24, in demand 3 too, take in each number so called)"
#[test]
fn faults_of_the_text() {
    let faults: Vec<u64> = (0..100).filter(|&outcome| sort(outcome) == Some(Sort::Fault)).collect();
    assert_eq!(faults, (10..=24).chain([33, 36]).collect::<Vec<u64>>());
}

/// However the name became empty.
#[test]
fn empty_names() {
    check(&[
        // Written as nothing, with an empty value and a surplus parameter too.
        ("$DEF,,;", "33 7 0 7 10 0", ""),
        ("$DEF,,x,y;", "33 10 0 10 13 0", ""),
        ("$DEF,<>,x;", "33 10 0 10 11 0", ""),
        // By IF, by VAL of an empty value, by UPDATE, and by a definition in the name, which gives nothing and stands.
        ("$DEF,$IF,0,y;,x;", "33 16 0 16 19 0", ""),
        ("$DEF,e,;$DEF,$VAL,e;,x;", "33 23 0 23 24 1", ""),
        ("$DEF,e,y;$DEF,$UPDATE,e,;,x;", "33 28 0 28 29 1", ""),
        ("$DEF,$DEF,m,z;,x;", "33 17 0 17 20 1", ""),
        // A parameter is fetched that is empty: 16 for z, 7 for its call, 11 for DEF's list.
        ("$DEF,z,<$DEF,~1,x;>;$z,;", "33 24 0 33 34 1", ""),
        // The comma that ends the name stands in a body.
        ("$DEF,p,<,x>;$DEF,$p;;", "33 21 0 24 24 1", ""),
    ]);
    check_outcomes(&[
        ("$DEF,<><>,x;", 33, ""),
        ("$DEF,$IF,1,;,x;", 33, ""),
        ("$DEF,p,<,,x>;$DEF$p;;", 33, ""),
        ("$DEF,z,<$DEF,~b,x;>;$z,1,2,3,4,5,6,7,8,9,A,;", 33, ""),
        ("$DEF,e,;$DEF,$e;$e;<>$IF,0,a;,x;", 33, ""),
        // The name of DEF is given by a call.
        ("$DEF,d,DEF;$$d;,,x;", 33, ""),
        ("$DEF,d,<DEF,,x>;$$d;;", 33, ""),
    ]);
}

#[test]
fn places_of_an_empty_name() {
    check(&[
        ("ab$DEF,,x;cd", "33 10 2 10 11 0", "ab"),
        // In an argument, in a name, and in DEF's own list, in its name and in its value.
        ("$a,$DEF,,x;;", "33 11 0 11 17 0", ""),
        ("$$DEF,,x;;", "33 9 0 9 15 0", ""),
        ("$DEF,$DEF,,x;,y;", "33 13 0 13 19 0", ""),
        ("$DEF,a,$DEF,,x;;", "33 15 0 15 21 0", ""),
        // In a body: k has 14, its call 6. In a body within that of j, which has 9, for the list of `$a,`.
        ("$DEF,k,<$DEF,,x;>;$k;", "33 21 0 29 31 1", ""),
        ("$DEF,k,<$DEF,,x;>;$DEF,j,<$k;>;$a,$j;;", "33 37 0 48 52 2", ""),
        // In quotes nothing is defined.
        ("<$DEF,,x;>", "0 10 8 11 0 0", "$DEF,,x;"),
        ("$DEF,k,<$DEF,,x;>;", "0 18 0 19 19 1", ""),
    ]);
    check_outcomes(&[
        ("$VAL,$DEF,,x;;", 33, ""),
        ("$UPDATE,a,$DEF,,x;;", 33, ""),
        ("$SEQ,$DEF,,x;,;", 33, ""),
        ("$DEF,k,<a$DEF,k,v;$k;$DEF,<>,x;b>;$k;c", 33, "av"),
    ]);
}

#[test]
fn under_other_signs() {
    let mut kinds = vec![0; 256];
    for (kind, sign) in (1..).zip(b"#|:%[]") {
        kinds[usize::from(*sign)] = kind;
    }
    let table = Table::accepted(&kinds);
    for (script, report) in [
        (&b"#DEF||x:"[..], "33 8 0 8 11 0"),
        (b"#DEF|[]|x:", "33 10 0 10 11 0"),
        (b"#DEF|,|x:", "0 9 0 10 12 1"),
        (b"#DEF|<>|x:", "0 10 0 11 13 1"),
        (b"#:", "15 2 0 2 5 0"),
    ] {
        let end = run_signs(&table, script, &Lent::PROGRAM);
        assert_eq!(line(&end), report, "{}", text(script));
        let substituted = substitute(script, table.as_ref().expect("accepted"), &BOUNDS);
        assert_eq!(substituted, Some(end), "{}", text(script));
    }
}

#[test]
fn order_of_checks() {
    check_lent(&[
        // 10, then the 4 of the own cell, then 13, then 33. Nothing is written, so there is no 5.
        ("$DEF,p,<;>;$DEF,,$p;x;", 22, 0, "10 20 0 21 22 1"),
        ("$DEF,,x;", 10, 0, "4 8 0 8 10 0"),
        ("$DEF,,x;", 11, 0, "33 8 0 8 11 0"),
        ("$DEF,;", 8, 0, "4 6 0 6 8 0"),
        ("$DEF,;", 9, 0, "13 6 0 6 9 0"),
        ("$DEF,k,<$DEF,,x;>;$k;", 30, 0, "4 21 0 29 30 1"),
        ("$DEF,k,<$DEF,,x;>;$k;", 31, 0, "33 21 0 29 31 1"),
        ("ab$DEF,,x;", 11, 1, "5 2 1 2 0 0"),
    ]);
    check_allowance(&[("$DEF,,x;", 8, "33 8 0 8 11 0"), ("$DEF,,x;", 7, "3 7 0 7 10 0")]);
    check_outcomes(&[
        ("$DEF;", 13, ""),
        ("$DEF,<>;", 13, ""),
        ("$DEF,$IF,0,y;;", 13, ""),
        // What comes before the `;` of DEF comes first, and 15 for another name.
        ("$DEF,,~1;", 11, ""),
        ("$DEF,k,<$DEF,,~;>;$k;", 12, ""),
        ("$DEF,k,<$DEF,,~1;>;$k;", 13, ""),
        ("$DEF,k,<$DEF,,x>;$k;", 14, ""),
        ("$DEF,,$j;;", 15, ""),
        ("$DEF,,>", 16, ""),
        ("$DEF,,<x;", 17, ""),
        ("$DEF,,x", 18, ""),
        ("$DEF,,$VAL,DEF;;", 19, ""),
        ("$DEF,,$Rem,1,0;;", 23, ""),
        ("$def,,x;", 15, ""),
        ("$DEFF,,x;", 15, ""),
        ("$ DEF,,x;", 15, ""),
    ]);
}

#[test]
fn charge_at_an_empty_name() {
    // The cell of `;` is allowed and counted in the highest; nothing is exchanged and nothing goes.
    assert_eq!(charges("$DEF,,x;"), [4, 5, 6, 7, 8, 9, 10, 10]);
    assert_eq!(charges("$DEF,$DEF,m,z;,x;")[13..], [15, 16, 17, 17]);
    let with_a_name = [4, 5, 6, 7, 8, 9, 10, 11, 7, 7];
    assert_eq!(charges("$DEF,k,x;"), with_a_name);
}

/// Every byte is a name but for quotes, which are none by themselves.
#[test]
fn names_of_one_byte() {
    for byte in (0..=255).filter(|byte| !b"<>".contains(byte)) {
        let script = [b"$DEF,<", &[byte][..], b">,x;$<", &[byte], b">;$VAL,<", &[byte], b">;"].concat();
        let end = run(&script, &Lent::PROGRAM);
        assert_eq!(
            (line(&end).as_str(), text(&end.output)),
            ("0 25 2 28 17 1", "xx"),
            "{byte}"
        );
        assert_eq!(end.standing[0].name, [byte]);
        assert_eq!(substitute(&script, &Table::STANDARD, &BOUNDS), Some(end), "{byte}");
    }
    check_outcomes(&[
        ("$DEF, ,x;$ ;", 0, "x"),
        ("$DEF,\n,x;$\n;", 0, "x"),
        ("$DEF,\0,x;$\0;", 0, "x"),
        ("$DEF,<<>>,x;$<<>>;", 0, "x"),
        ("$DEF, ,x;$;", 15, ""),
        ("$DEF,\0,x;$VAL,;", 15, ""),
        // The value may be empty.
        ("$DEF,e,;$e;", 0, ""),
        ("$DEF,e,<>,;$VAL,e;", 0, ""),
    ]);
}

#[test]
fn hidden_by_a_definition() {
    check_outcomes(&[
        ("$DEF,DEF,<[~1|~2]>;$DEF,,x;", 0, "[|x]"),
        ("$DEF,DEF,<[~1]>;$DEF,;$DEF,<>;$DEF,,;", 0, "[][][]"),
        ("$DEF,DEF,<~1>;$DEF;", 13, ""),
        // Hidden while its list stands, and not after.
        ("$DEF,,x,$DEF,DEF,<[~1|~2]>;;", 0, "[|x]"),
        ("$DEF,,x,$DEF,DEF,<[~1|~2]>;;$DEF,,x;", 33, "[|x]"),
        ("$i,$DEF,DEF,<[~1]>;$DEF,,x;$DEF,i,,x;;", 15, ""),
        // A macro that calls DEF has no check of its own; DEF has.
        ("$DEF,D,<$DEF,~1,~2;>;$D,k,v;$k;$D,,x;", 33, "v"),
        ("$DEF,D,<(~1)>;$D,,x;", 0, "()"),
    ]);
}

#[test]
fn looked_up() {
    check(&[
        ("$,x;", "15 4 0 4 7 0", ""),
        ("$<>;", "15 4 0 4 5 0", ""),
        ("$VAL,<>,x;", "15 10 0 10 11 0", ""),
        ("$UPDATE,,;", "15 10 0 10 13 0", ""),
        ("$DEF,k,v;$;", "15 11 0 11 12 1", ""),
        // In a body, a name fetched: k has 14 and its call 7, VAL's list 9.
        ("$DEF,k,<$VAL,~1;>;$k,;", "15 22 0 29 30 1", ""),
    ]);
    let before = "$DEF,k,v;$DEF,e,;$DEF,j,<~1>;";
    for call in ["$;", "$<>;", "$,k;", "$$e;;", "$$IF,0,k;;", "$$j,;,k;"] {
        check_outcomes(&[(&format!("{before}{call}"), 15, "")]);
        check_outcomes(&[(&format!("{before}$DEF,l,<a{call}>;$l;"), 15, "a")]);
        check_outcomes(&[(&format!("{before}b$j,{call};"), 15, "b")]);
    }
    for name in ["", "<>", "$e;", "$VAL,e;", "$IF,0,k;", "$j,;"] {
        for call in [format!("$VAL,{name};"), format!("$UPDATE,{name},;")] {
            check_outcomes(&[(&format!("{before}a{call}"), 15, "a")]);
            check_outcomes(&[(&format!("{before}$k,{call};"), 15, "")]);
            check_outcomes(&[(&format!("{before}$DEF,l,<{call}>;$l;"), 15, "")]);
        }
    }
    check_outcomes(&[("$VAL;", 13, ""), ("$UPDATE,;", 13, ""), ("$DEF,,x;$;", 33, "")]);
}

/// "before anything is defined", and nothing is dropped at a fault.
#[test]
fn definitions_standing() {
    assert_eq!(standing("$DEF,,x;"), []);
    assert_eq!(
        standing("$DEF,a,1;$DEF,b,23;$UPDATE,b,4;$DEF,,x;$DEF,c,5;"),
        [is("b", "4", 2), is("a", "1", 1)]
    );
    // Those made in DEF's list, in the list around it and in that of the body.
    assert_eq!(
        standing("$DEF,a,1;$DEF,$DEF,m,z;,$DEF,n,y;x;"),
        [is("n", "y", 1), is("m", "z", 1), is("a", "1", 1)]
    );
    assert_eq!(standing("$a,$DEF,m,z;$DEF,,x;;"), [is("m", "z", 1)]);
    assert_eq!(
        standing("$DEF,k,<$DEF,o,1;$DEF,,x;>;$k,$DEF,m,z;;")[..2],
        [is("o", "1", 1), is("m", "z", 1)]
    );
    // Those of a list that has gone are gone.
    assert_eq!(standing("$SIZE,$DEF,m,z;;$DEF,,x;"), []);
}

#[test]
fn trace_tells_what_begins_and_what_is_open() {
    let script = "$DEF,k,<~1>;$k,<a>;";
    let mut begun = Vec::new();
    traced(script, &Lent::PROGRAM, &mut |row| {
        begun.extend(row.begun().map(|list| text(&list.join(&b'/')).to_string()));
    });
    assert_eq!(begun, ["k/a"]);
    // Open calls and commas of the innermost, as the digits of a number; then whether quotes are.
    let open = after_each_scan(script, |row| 10 * row.open().0 + row.open().1);
    assert_eq!(open[..12], [10, 10, 10, 10, 11, 11, 12, 12, 12, 12, 12, 0]);
    assert_eq!(open[12..], [10, 10, 11, 11, 11, 11, 0, 0, 0, 0]);
    let quotes = after_each_scan(script, |row| usize::from(row.in_quotes()));
    assert_eq!(quotes[6..12], [0, 1, 1, 1, 0, 0]);
}

/// What a `;` comes to whose list has an empty name for it to define or look up.
fn of_an_empty_name(list: &[&[u8]]) -> Option<u64> {
    match *list {
        [b"", ..] => Some(15),
        [b"DEF" | b"UPDATE", b""] => Some(13),
        [b"DEF", b"", ..] => Some(33),
        [b"VAL" | b"UPDATE", b"", ..] => Some(15),
        _ => None,
    }
}

/// Nothing has an empty name after a scan, and 33 comes where it should, and only there.
fn hold_names(row: &Row, script: &str) {
    assert!(row.definitions().all(|(name, _)| !name.is_empty()), "{script}");
    assert!(row.bodies().iter().all(|(name, _)| !name.is_empty()), "{script}");
    let list = row.applied().unwrap_or_default();
    let expected = of_an_empty_name(&list);
    match row.outcome {
        // It came before the list was looked at.
        Some(10) => {}
        outcome if expected.is_some() => assert_eq!(outcome, expected, "{script}"),
        outcome => assert_ne!(outcome, Some(33), "{script}"),
    }
}

/// The end, which both halves give, of a run in which names hold.
fn end_with_names(script: &str) -> End {
    traced(script, &Lent::PROGRAM, &mut |row| hold_names(row, script));
    let end = end(script);
    assert!(end.standing.iter().all(|it| !it.name.is_empty()), "{script}");
    end
}

/// Demand 3: the end wherever what is lent suffices, and else an end for want of it.
fn hold_limits(script: &str, end: &End) {
    let report = &end.report;
    let enough = Lent {
        cells: report.most as usize,
        output: report.written as usize,
        allowance: report.scans,
        numbers: None,
    };
    let outcome = |lent: Lent| run(script.as_bytes(), &lent).report.outcome;
    assert_eq!(run(script.as_bytes(), &enough), *end, "{script}");
    let (cells, allowance) = (enough.cells - 1, enough.allowance - 1);
    assert_eq!(outcome(Lent { cells, ..enough }), 4, "{script}");
    assert_eq!(outcome(Lent { allowance, ..enough }), 3, "{script}");
    if let Some(output) = enough.output.checked_sub(1) {
        assert_eq!(outcome(Lent { output, ..enough }), 5, "{script}");
    }
}

/// Every script of up to so many pieces.
pub(super) fn scripts(pieces: &[&str], most: usize) -> Vec<String> {
    let mut scripts = vec![String::new()];
    let mut longest = scripts.clone();
    for _ in 0..most {
        let longer = |script: &String| {
            pieces
                .iter()
                .map(|piece| format!("{script}{piece}"))
                .collect::<Vec<_>>()
        };
        longest = longest.iter().flat_map(longer).collect();
        scripts.extend(longest.clone());
    }
    scripts
}

/// How often 13, 15 and 33 are the end.
fn ends(scripts: impl Iterator<Item = String>) -> [usize; 3] {
    let mut counts = [0; 3];
    for script in scripts {
        let end = end_with_names(&script);
        if let Some(place) = [13, 15, 33].iter().position(|&outcome| outcome == end.report.outcome) {
            counts[place] += 1;
            hold_limits(&script, &end);
        }
    }
    counts
}

#[test]
fn every_short_script() {
    let scripts = scripts(&["$DEF", "$VAL", "$", ",", ";", "<>", "a"], 6);
    assert_eq!(scripts.len(), 137_257);
    let [missing, not_defined, nameless] = ends(scripts.into_iter());
    assert!(missing > 1_000 && not_defined > 1_000 && nameless > 200, "{nameless}");
}

/// With an empty parameter, and with a macro that gives nothing.
#[test]
fn every_short_body() {
    let bodies = scripts(&["$DEF,", "$UPDATE,", "$e;", "~1", ",", ";", "a"], 5);
    assert_eq!(bodies.len(), 19_608);
    let in_a_call = |body: String| format!("$DEF,e,;$DEF,k,<{body}>;x$k,;");
    let [missing, not_defined, nameless] = ends(bodies.into_iter().map(in_a_call));
    assert!(missing > 200 && not_defined > 200 && nameless > 200, "{nameless}");
}
