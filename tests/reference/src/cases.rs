//! Scripts with known ends, worked out by hand from document 01 and document 02's requests One to Nine and Thirteen, against
//! both halves.
mod charge_carried;
mod groups;
mod keys;
mod locked;
mod m6_words;
mod menu_wheels;
mod nameless;
mod origins;
mod own_signs;

use crate::arithmetic::{reckon, Operation};
use crate::ends::{End, Sort};
use crate::scanning::{run, run_reading, run_traced, Handled, Lent, Row};
use crate::signs::{digit, digit_or_letter, Table, LIMIT};
use crate::substitution::{substitute, Bounds};

const BOUNDS: Bounds = Bounds {
    depth: 100,
    scans: 1_000_000,
    charge: 1_000_000,
    output: 1_000_000,
};

fn line(end: &End) -> String {
    let report = &end.report;
    assert_eq!(report.written, end.output.len() as u64);
    assert_eq!(report.live, end.standing.len() as u64);
    report.to_string()
}

fn text(bytes: &[u8]) -> &str {
    std::str::from_utf8(bytes).expect("the cases are ASCII")
}

/// Substitution and traced scanning under the standard signs.
fn substituted(script: &str, bounds: &Bounds) -> Option<End> {
    substitute(script.as_bytes(), &Table::STANDARD, bounds)
}

fn traced(script: &str, lent: &Lent, each: &mut dyn FnMut(&Row)) -> End {
    run_traced(&Ok(Table::STANDARD), script.as_bytes(), lent, each)
}

/// The end, which both halves give.
fn end(script: &str) -> End {
    let scanned = run(script.as_bytes(), &Lent::PROGRAM);
    assert_eq!(substituted(script, &BOUNDS).as_ref(), Some(&scanned), "{script}");
    let report = &scanned.report;
    assert!(report.is(Sort::Finish) || report.is(Sort::Fault), "{script}");
    scanned
}

/// Each script with its report and its output.
fn check(cases: &[(&str, &str, &str)]) {
    for (script, report, output) in cases {
        let end = end(script);
        assert_eq!((line(&end).as_str(), text(&end.output)), (*report, *output), "{script}");
    }
}

/// Each script with its outcome and its output.
fn check_outcomes(cases: &[(&str, u64, &str)]) {
    for (script, outcome, output) in cases {
        let end = end(script);
        assert_eq!((end.report.outcome, text(&end.output)), (*outcome, *output), "{script}");
    }
}

/// Each script with the cells and the output lent, and its report; by scanning alone.
fn check_lent(cases: &[(&str, usize, usize, &str)]) {
    for &(script, cells, output, report) in cases {
        let lent = Lent {
            cells,
            output,
            ..Lent::PROGRAM
        };
        assert_eq!(line(&run(script.as_bytes(), &lent)), report, "{script} {lent:?}");
    }
}

/// Each script with the allowance and its report; by scanning alone.
fn check_allowance(cases: &[(&str, u64, &str)]) {
    for &(script, allowance, report) in cases {
        let lent = Lent {
            allowance,
            ..Lent::PROGRAM
        };
        assert_eq!(line(&run(script.as_bytes(), &lent)), report, "{script} {lent:?}");
    }
}

/// Name, value and defined length of each definition standing, newest first.
fn standing(script: &str) -> Vec<(String, String, usize)> {
    let own = |bytes: &[u8]| text(bytes).to_string();
    let end = end(script);
    end.standing
        .iter()
        .map(|it| (own(&it.name), own(&it.value), it.defined))
        .collect()
}

fn is(name: &str, value: &str, defined: usize) -> (String, String, usize) {
    (name.to_string(), value.to_string(), defined)
}

const A: &str = "$DEF,k,<p~1>;$k,7;";

#[test]
fn table_of_document_01() {
    check(&[
        (A, "0 18 2 22 17 1", "p7"),
        ("", "0 0 0 1 0 0", ""),
        ("$A,X,U,$DEF,A,<~1~2~1>;;", "0 24 3 29 27 0", "XUX"),
        ("a<b<c>d>e", "0 9 7 10 0 0", "ab<c>de"),
        ("p>q", "1 2 1 2 0 0", "p"),
        ("$DEF,k,<1,2>;$DEF,j,<~1+~2>;$j,$k;;", "0 35 3 44 35 2", "1+2"),
        ("$DEF,k,<x;>;$k;", "10 15 1 17 14 1", "x"),
        ("$DEF,k,<$j>;$k;", "14 15 0 18 19 1", ""),
        (
            "$DEF,t,<$~1,$DEF,~1,no;$DEF,a,yes;;>;$t,a;$t,b;",
            "0 47 5 107 69 1",
            "yesno",
        ),
        ("$DEF,k,ab;$UPDATE,k,c;$k;$UPDATE,k,xy;$k;", "0 41 3 47 24 1", "cxy"),
        ("$DEF,k,ab;$UPDATE,k,c;$k;$UPDATE,k,xyz;$k;", "21 39 1 41 25 1", "c"),
        ("$DEF,k,<$UPDATE,k,a;>;$k;", "20 25 0 37 39 1", ""),
        ("$DEF,mk,<$DEF,m,z;>;$mk;$m;", "0 27 1 40 35 2", "z"),
        ("$DEF,k,<[~1]>;$k,a$DEF,m,z;b;", "0 29 4 34 29 1", "[ab]"),
        ("$-,3,5;", "0 7 2 8 10 0", "-2"),
        ("$Quot,-7,2;", "0 11 2 12 14 0", "-4"),
        ("$Rem,-7,2;", "0 10 1 11 13 0", "1"),
        ("~1", "0 2 2 3 0 0", "~1"),
        ("$a,~1;", "11 4 0 4 6 0", ""),
        ("$j;", "15 3 0 3 6 0", ""),
    ]);
}

#[test]
fn table_of_document_01_by_scanning_alone() {
    check_lent(&[(A, 16, 65_536, "4 18 0 18 16 1"), (A, 17, 2, "0 18 2 22 17 1")]);
    check_allowance(&[("", 0, "3 0 0 0 0 0"), ("", 1, "0 0 0 1 0 0")]);
}

#[test]
fn lent_over_the_limit() {
    let long = "x".repeat(LIMIT + 1);
    let nothing = "2 0 0 0 0 0";
    check_lent(&[
        (&long, 0, LIMIT, nothing),
        (A, LIMIT + 1, LIMIT, nothing),
        (A, LIMIT, LIMIT + 1, nothing),
        (A, LIMIT, LIMIT, "0 18 2 22 17 1"),
        (&long[1..], LIMIT, LIMIT, "0 65536 65536 65537 0 0"),
    ]);
    check_allowance(&[(&long, 0, nothing)]);
}

#[test]
fn allowance_used() {
    check_allowance(&[
        (A, 22, "0 18 2 22 17 1"),
        (A, 21, "3 18 2 21 17 1"),
        (A, 19, "3 18 1 19 17 1"),
        (A, 12, "3 12 0 12 13 0"),
        ("p>q", 2, "1 2 1 2 0 0"),
        ("p>q", 1, "3 1 1 1 0 0"),
        ("$j;", 3, "15 3 0 3 6 0"),
        ("$j;", 2, "3 2 0 2 5 0"),
    ]);
}

#[test]
fn each_fault() {
    check(&[
        ("$DEF,k,<;>;$a,$k;;", "10 17 0 18 19 1", ""),
        ("$~1;", "11 2 0 2 4 0", ""),
        ("$DEF,k,<~X>;$k;", "12 15 0 16 14 1", ""),
        ("$DEF,k,<~>;$k;", "12 14 0 15 13 1", ""),
        ("$DEF,k,<~<1>>;$k;", "12 17 0 18 16 1", ""),
        ("$DEF,k,<~1>;$k;", "13 15 0 16 14 1", ""),
        ("$DEF,k;", "13 7 0 7 10 0", ""),
        ("$VAL;", "13 5 0 5 8 0", ""),
        ("$+,x;", "13 5 0 5 8 0", ""),
        ("$DEF,k,<$j,>;$k;", "14 16 0 20 21 1", ""),
        ("$;", "15 2 0 2 5 0", ""),
        ("$VAL,;", "15 6 0 6 9 0", ""),
        ("$UPDATE,j,x;", "15 12 0 12 15 0", ""),
        ("$a>", "16 3 0 3 5 0", ""),
        ("<a", "17 2 1 3 0 0", "a"),
        ("$a<b", "17 4 0 5 6 0", ""),
        ("$a", "18 2 0 3 5 0", ""),
        ("$VAL,DEF;", "19 9 0 9 12 0", ""),
        ("$UPDATE,+,x;", "19 12 0 12 15 0", ""),
        ("$DEF,k,<$j;>;$DEF,j,<$UPDATE,k,a;>;$k;", "20 38 0 53 54 2", ""),
        ("$DEF,k,;$UPDATE,k,x;", "21 20 0 20 21 1", ""),
        ("$+,x,1;", "22 7 0 7 10 0", ""),
        ("$Rem,x,0;", "22 9 0 9 12 0", ""),
        ("$Rem,0,x;", "22 9 0 9 12 0", ""),
        ("$Quot,1,0;", "23 10 0 10 13 0", ""),
        ("$+,2147483647,1;", "24 16 0 16 19 0", ""),
    ]);
}

#[test]
fn order_of_checks_at_the_semicolon() {
    let val = "$DEF,k,abc;$a,$VAL,k;;";
    check_lent(&[
        // 10 before the 4 of the own cell: the charge stands at 19 there.
        ("$DEF,k,<;>;$a,$k;;", 19, 0, "10 17 0 18 19 1"),
        // The 4 of the own cell before 15, 13 and the built-in's.
        ("$j;", 5, 0, "4 3 0 3 5 0"),
        ("$j;", 6, 0, "15 3 0 3 6 0"),
        ("$VAL;", 7, 0, "4 5 0 5 7 0"),
        ("$VAL;", 8, 0, "13 5 0 5 8 0"),
        ("$Rem,1,0;", 11, 0, "4 9 0 9 11 0"),
        // The built-in's before the 4 or 5 of the result.
        ("$a,$Rem,1,0;;", 18, 0, "23 12 0 12 18 0"),
        ("$Rem,1,0;", 12, 0, "23 9 0 9 12 0"),
        ("$a,$VAL,j;;", 16, 0, "15 10 0 10 16 0"),
        // The own cell was allowed, the result beside it was not.
        (val, 24, 0, "4 21 0 21 24 1"),
        (val, 25, 0, "4 21 0 21 25 1"),
        (val, 27, 0, "4 21 0 21 25 1"),
        (val, 28, 0, "15 22 0 22 28 1"),
        ("$DEF,k,abc;$VAL,k;", 19, 2, "5 18 0 18 19 1"),
        ("$DEF,k,abc;$VAL,k;", 19, 3, "0 18 3 19 19 1"),
        ("$-,3,5;", 10, 1, "5 7 0 7 10 0"),
        ("$-,3,5;", 10, 2, "0 7 2 8 10 0"),
    ]);
}

#[test]
fn order_of_checks_at_the_tilde() {
    // Cells enough up to the `~`, and none for what it fetches.
    check_lent(&[
        ("$a~", 5, 0, "11 3 0 3 5 0"),
        ("$DEF,k,<~X>;$a,$k;;", 20, 0, "12 18 0 19 20 1"),
        ("$DEF,k,<~1>;$a,$k;;", 20, 0, "13 18 0 19 20 1"),
        ("$DEF,k,<~0>;$a,$k;;", 20, 0, "4 18 0 19 20 1"),
        ("$DEF,k,<~X>;$k;", 14, 0, "12 15 0 16 14 1"),
        ("$DEF,k,<~1>;$k;", 14, 0, "13 15 0 16 14 1"),
        ("$DEF,k,<~0>;$k;", 14, 0, "5 15 0 16 14 1"),
        // A copy goes through whole or not at all.
        ("$DEF,k,<~1>;$k,abc;", 65_536, 2, "5 19 0 20 18 1"),
        ("$DEF,k,<~1>;$k,abc;", 65_536, 3, "0 19 3 22 18 1"),
        ("$DEF,k,<~1>;$a,$k,bcd;;", 26, 0, "4 22 0 23 24 1"),
        // At a letter, in the same order.
        ("$DEF,k,<~a>;$a,$k;;", 20, 0, "13 18 0 19 20 1"),
        ("$DEF,k,<~a>;$a,$k,,,,,,,,,,bcd;;", 35, 0, "4 31 0 32 33 1"),
        ("$DEF,k,<~a>;$k,,,,,,,,,,abc;", 65_536, 2, "5 28 0 29 27 1"),
        ("$DEF,k,<~a>;$k,,,,,,,,,,abc;", 65_536, 3, "0 28 3 31 27 1"),
    ]);
}

#[test]
fn copies_refused() {
    check_lent(&[
        ("ab", 0, 1, "5 2 1 2 0 0"),
        ("a,", 0, 1, "5 2 1 2 0 0"),
        ("a;", 0, 1, "5 2 1 2 0 0"),
        ("a~", 0, 1, "5 2 1 2 0 0"),
        ("a<>", 0, 1, "0 3 1 4 0 0"),
        ("<<", 0, 0, "5 2 0 2 0 0"),
        ("$", 3, 0, "4 1 0 1 0 0"),
        ("$a", 4, 0, "4 2 0 2 4 0"),
        ("$a,", 5, 0, "4 3 0 3 5 0"),
        ("$<<", 4, 0, "4 3 0 3 4 0"),
    ]);
}

#[test]
fn commas() {
    check_outcomes(&[
        ("a,b", 0, "a,b"),
        ("$DEF,k,<a,b>;$k;", 0, "a,b"),
        // On behalf of the name: `$k;` gives the name x and the parameter y.
        ("$DEF,k,<x,y>;$DEF,x,<[~1]>;$$k;;", 0, "[y]"),
        // Two bodies deep.
        ("$DEF,k,<1,2>;$DEF,i,<0$k;3>;$DEF,j,<~2~1>;$j,$i;;", 0, "2301"),
        // Quoted, fetched or given by VAL a comma does not divide.
        ("$DEF,j,<[~1]>;$j,<1,2>;", 0, "[1,2]"),
        ("$DEF,i,<$j,~1;>;$DEF,j,<[~1]>;$i,<1,2>;", 0, "[1,2]"),
        ("$DEF,k,<1,2>;$DEF,j,<[~1]>;$j,$VAL,k;;", 0, "[1,2]"),
        // In a body whose value is not collected, a call begun there has its own commas.
        ("$DEF,k,<a,$j,b;,c>;$DEF,j,<[~1]>;$k;", 0, "a,[b],c"),
    ]);
}

#[test]
fn quotes() {
    check(&[
        ("<<a>>", "0 5 3 6 0 0", "<a>"),
        ("<<<>>>$j", "18 8 4 9 5 0", "<<>>"),
        ("$DEF,k,<<~1>>;$k;", "0 17 2 23 16 1", "~1"),
        ("<$j;~1,>", "0 8 6 9 0 0", "$j;~1,"),
        ("$DEF,k,<<<a>>;>;$k;", "10 19 3 25 18 1", "<a>"),
    ]);
    check_outcomes(&[
        ("$DEF,k,<a<>>;$k;>", 1, "a"),
        ("$DEF,k,<<$>j<;>>;$k;", 0, "$j;"),
        ("<<a>", 17, "<a>"),
    ]);
}

#[test]
fn signs_in_the_text() {
    check(&[
        ("a;b", "0 3 3 4 0 0", "a;b"),
        ("~~9", "0 3 3 4 0 0", "~~9"),
        ("$DEF,k,v;;", "0 10 1 11 12 1", ";"),
    ]);
    // After a call has been applied, `;` in the text applies the call around it.
    check_outcomes(&[("$DEF,k,v;$DEF,v,w;$$k;;", 0, "w"), ("$DEF,k,v;$k;~1", 0, "v~1")]);
}

#[test]
fn parameters() {
    check(&[
        // Surplus parameters are ignored.
        ("$DEF,k,v,w;$VAL,k,z;", "0 20 1 21 19 1", "v"),
        ("$+,1,2,x;", "0 9 1 10 12 0", "3"),
        ("$DEF,k,<~0~2>;$k,a,b,c;", "0 23 2 27 22 1", "kb"),
        // A fetched parameter is not scanned again.
        ("$DEF,k,<~1>;$k,<$j;>;", "0 21 3 24 18 1", "$j;"),
    ]);
    // In a list begun in a body, `~` still fetches that body's parameters.
    check_outcomes(&[("$DEF,j,<[~1]>;$DEF,k,<$j,~2~1;>;$k,a,b;", 0, "[ba]")]);
}

#[test]
fn table_of_request_one() {
    let numbers: Vec<String> = (1..=35).map(|number| number.to_string()).collect();
    let last = format!("$DEF,k,<~z>;$k,{};", numbers.join(","));
    check(&[
        ("$DEF,k,<~a~b>;$k,1,2,3,4,5,6,7,8,9,A,B;", "0 39 2 43 38 1", "AB"),
        (&last, "0 111 2 114 110 1", "35"),
        ("$DEF,k,<~a>;$k,1;", "13 17 0 18 16 1", ""),
        ("$DEF,k,<~A>;$k,1;", "12 17 0 18 16 1", ""),
        ("$DEF,k,<~{>;$k,1;", "12 17 0 18 16 1", ""),
        ("$DEF,k,<<~>a>;$k;", "0 17 2 23 16 1", "~a"),
        ("$DEF,m,<~><a>;$m;", "13 17 0 18 14 1", ""),
        ("$DEF,m,<<~><a>>;$m;", "0 19 2 27 18 1", "~a"),
        ("~a", "0 2 2 3 0 0", "~a"),
    ]);
}

#[test]
fn letters_for_parameters_past_nine() {
    check(&[
        // Two digits are a digit that fetches and a plain one.
        ("$DEF,k,<~10>;$k,x;", "0 18 2 22 17 1", "x0"),
        ("$DEF,k,<~`>;$k;", "12 15 0 16 14 1", ""),
        ("$DEF,k,<~<a>>;$k;", "12 17 0 18 16 1", ""),
        ("$k,~a;", "11 4 0 4 6 0", ""),
    ]);
    check_outcomes(&[
        // A letter counts parameters as a digit does: from body commas, in a list begun in the body, unscanned.
        ("$DEF,l,<1,2,3,4,5,6>;$DEF,k,<~c~b~a>;$k,$l;,$l;;", 0, "654"),
        ("$DEF,j,<[~1]>;$DEF,k,<$j,~a;>;$k,1,2,3,4,5,6,7,8,9,A,B;", 0, "[A]"),
        ("$DEF,k,<~a>;$k,1,2,3,4,5,6,7,8,9,<~b,$j;>;", 0, "~b,$j;"),
        ("$DEF,k,<~a>;$k,1,2,3,4,5,6,7,8,9,;", 0, ""),
        ("$DEF,k,<~b>;$k,1,2,3,4,5,6,7,8,9,A;", 13, ""),
    ]);
}

#[test]
fn bytes_that_fetch() {
    let fetching: Vec<u8> = (0..=255).filter(|&byte| digit_or_letter(byte).is_some()).collect();
    assert_eq!(text(&fetching), "0123456789abcdefghijklmnopqrstuvwxyz");
    let numbers: Vec<usize> = fetching.iter().filter_map(|&byte| digit_or_letter(byte)).collect();
    assert_eq!(numbers, (0..36).collect::<Vec<usize>>());
}

/// Enough for four pieces, unless they have no end.
const LITTLE: Lent = Lent {
    cells: 300,
    output: 300,
    allowance: 500,
    numbers: None,
};

/// Every way to put four of these pieces together.
fn four_pieces() -> impl Iterator<Item = String> {
    const PIECES: [&str; 9] = ["~", "1", "a", "x", "<", ">", ",", ";", "$k"];
    let more = |pieces: String| PIECES.iter().map(move |piece| format!("{pieces}{piece}"));
    more(String::new()).flat_map(more).flat_map(more).flat_map(more)
}

/// Whether a script expands as before request One. It does unless a body shows an unquoted `~` before a letter; then it
/// was refused with 12 at the first such place.
fn expands_as_before(script: &str) -> bool {
    let mut first = None;
    let now = traced(script, &LITTLE, &mut |row| {
        if matches!(row.handled, Handled::Parameter(b'a'..=b'z')) {
            first.get_or_insert(row.scan());
        }
    });
    let before = run_reading(script.as_bytes(), &LITTLE, digit);
    match first {
        None => assert_eq!(before, now, "{script}"),
        Some(scan) => assert_eq!((before.report.outcome, before.report.scans), (12, scan), "{script}"),
    }
    first.is_none()
}

/// "Scripts in whose expansion no body shows an unquoted `~` before such a letter expand as before".
#[test]
fn scripts_without_letters_expand_as_before() {
    let in_body = |pieces: String| expands_as_before(&format!("$DEF,k,<{pieces}>;$k,1,2,3,4,5,6,7,8,9,A;"));
    let in_text = |pieces: String| expands_as_before(&format!("$DEF,k,<~1>;{pieces}"));
    let with_letters = four_pieces().map(in_body).filter(|as_before| !as_before).count();
    assert!(with_letters > 200, "{with_letters}");
    assert!(four_pieces().all(in_text));
}

#[test]
fn definitions_go_with_the_list() {
    check(&[
        // Made in an argument, in DEF's own list, in VAL's and in UPDATE's.
        ("$DEF,k,;$k,$DEF,m,z;;$m;", "15 24 0 25 24 1", ""),
        ("$DEF,k$DEF,m,z;,v;$m;", "15 21 0 21 21 1", ""),
        ("$VAL,k$DEF,k,z;;", "0 16 1 17 21 0", "z"),
        ("$DEF,k,ab;$UPDATE,k,c$DEF,k,d;;$k;", "0 34 2 38 34 1", "ab"),
        // Made in a body they stay, but go with the list that the body was read for.
        ("$DEF,mk,<$DEF,m,z;>;$DEF,k,;$k,$mk;;$m;", "15 39 0 50 47 2", ""),
    ]);
    assert_eq!(standing("$DEF,k$DEF,m,z;,v;$m;"), [is("k", "v", 1)]);
    // A list's definitions go from beneath those of its body.
    let beneath = "$DEF,a,1;$DEF,mk,<$DEF,b,3;$UPDATE,a,4;>;$mk,$DEF,c,2;;";
    assert_eq!(standing(beneath)[..1], [is("b", "3", 1)]);
    assert_eq!(standing(beneath)[2..], [is("a", "4", 1)]);
}

#[test]
fn definitions_before_a_refused_scan() {
    // Refused at DEF's `;`, at the end of a body, and at a `;` whose list has definitions: none is dropped.
    check_lent(&[
        ("$DEF,k,v;", 11, 0, "4 9 0 9 11 0"),
        ("$DEF,k,v;", 12, 0, "0 9 0 10 12 1"),
    ]);
    check(&[
        ("$x,$DEF,m,z;;", "15 13 0 13 18 1", ""),
        ("$VAL,j$DEF,m,z;;", "15 16 0 16 21 1", ""),
        ("$DEF,k,<$j>;$k,$DEF,m,z;;", "14 25 0 28 27 2", ""),
    ]);
}

#[test]
fn updates() {
    assert_eq!(standing("$DEF,k,abcd;$UPDATE,k,x;"), [is("k", "x", 4)]);
    assert_eq!(
        standing("$DEF,k,ab;$DEF,k,c;$UPDATE,k,;"),
        [is("k", "", 1), is("k", "ab", 2)]
    );
    check_outcomes(&[
        // The newest k is not the one whose body is being read.
        ("$DEF,k,<$DEF,k,ab;$UPDATE,k,cd;$k;>;$k;", 0, "cd"),
        // A value that is only copied is not a body.
        ("$DEF,k,ab;$UPDATE,k,$VAL,k;;$k;", 0, "ab"),
        // The body has been read by the time of the UPDATE.
        ("$DEF,k,ab;$UPDATE,k,$k;;$k;", 0, "ab"),
    ]);
}

/// What is read off the run after each scan.
fn after_each_scan(script: &str, read: fn(&Row) -> usize) -> Vec<usize> {
    let mut figures = Vec::new();
    traced(script, &Lent::PROGRAM, &mut |row| figures.push(read(row)));
    figures
}

/// The charge after each scan.
fn charges(script: &str) -> Vec<usize> {
    after_each_scan(script, |row| row.charge())
}

#[test]
fn charge_rises_and_falls() {
    // DEF's list of 15 becomes a definition of 10, which UPDATE leaves at 10.
    let charges = charges("$DEF,k,abcd;$UPDATE,k,x;a");
    assert_eq!(charges[..13], [4, 5, 6, 7, 8, 9, 10, 11, 12, 13, 14, 10, 14]);
    assert_eq!(charges[22..], [24, 10, 10, 10]);
}

#[test]
fn results_are_charged_before_the_list_goes() {
    check(&[
        // Collected: 9 for k, 6 for `$a,`, 10 for VAL's list and 3.
        ("$DEF,k,abc;$a,$VAL,k;;", "15 22 0 22 28 1", ""),
        ("$a,$-,3,5;;", "15 11 0 11 18 0", ""),
        // Not collected.
        ("$DEF,k,abc;$VAL,k;", "0 18 3 19 19 1", "abc"),
    ]);
}

#[test]
fn built_ins_can_be_hidden() {
    check_outcomes(&[
        ("$DEF,VAL,x;$VAL,VAL;", 0, "x"),
        ("$DEF,+,p;$VAL,+;", 0, "p"),
        ("$DEF,+,p;$UPDATE,+,q;$+,1,2;", 0, "q"),
        ("$DEF,DEF,;$DEF,k,v;$k;", 15, ""),
        ("$+,1,2,$DEF,+,<~1>;;$+,1,2;", 0, "13"),
        ("$DEF,,e;$;", 33, ""),
    ]);
}

#[test]
fn paper_examples() {
    let a = "$DEF,A,<A~1A>;$DEF,B,<B$A,X~1X;B>;$DEF,APA,<P~1~1P>;";
    let suc = "$DEF,Suc,<$1,2,3,4,5,6,7,8,9,10,$DEF,1,<~>~1;;>;";
    let cases = [
        (a, "$A,$A,C;;", "AACAA"),
        (a, "$B,D;", "BAXDXAB"),
        (a, "$$A,P;,Y;", "PYYP"),
        (a, "$B,<$A,X;>;", "BAX$A,X;XAB"),
        (a, "Q<$>R<;>", "Q$R;"),
        (suc, "$Suc,3;$Suc,0;$Suc,9;", "4110"),
    ];
    for (definitions, script, output) in cases {
        check_outcomes(&[(&format!("{definitions}{script}"), 0, output)]);
    }
}

#[test]
fn no_end_within_the_bounds() {
    let none = |script: &str, bounds: Bounds| assert!(substituted(script, &bounds).is_none(), "{script}");
    none("$DEF,k,<$k;>;$k;", BOUNDS);
    none("$DEF,k,<$k,~1~1;>;$k,x;", Bounds { charge: 50, ..BOUNDS });
    none("aa", Bounds { output: 1, ..BOUNDS });
    none("aa", Bounds { scans: 2, ..BOUNDS });
    none("$a", Bounds { depth: 0, ..BOUNDS });
    let least = Bounds {
        depth: 1,
        scans: 22,
        charge: 17,
        output: 2,
    };
    assert_eq!(substituted(A, &least), Some(end(A)));
}

#[test]
fn depth_is_of_nested_calls() {
    // `$k;` stands in the list of `$j`, and the body of `k` calls `$i;`: three deep.
    let script = "$DEF,i,x;$DEF,k,<$i;>;$DEF,j,<~1>;$j,$k;;";
    assert!(substituted(script, &Bounds { depth: 2, ..BOUNDS }).is_none());
    assert_eq!(substituted(script, &Bounds { depth: 3, ..BOUNDS }), Some(end(script)));
}

#[test]
fn traced_run_is_the_run() {
    let mut rows = Vec::new();
    let end = traced(A, &Lent::PROGRAM, &mut |row| {
        rows.push((row.scan(), row.handled, row.output().to_vec()))
    });
    assert_eq!(end, run(A.as_bytes(), &Lent::PROGRAM));
    assert_eq!(rows.len(), 22);
    assert_eq!(rows[0], (1, Handled::Byte(b'$'), b"".to_vec()));
    assert_eq!(rows[9], (10, Handled::Byte(b'~'), b"".to_vec()));
    assert_eq!(rows[19], (20, Handled::Parameter(b'1'), b"p7".to_vec()));
    assert_eq!(rows[20], (21, Handled::EndOfBody, b"p7".to_vec()));
    assert_eq!(rows[21], (22, Handled::EndOfText, b"p7".to_vec()));
}

/// What the last scan of a script handled, and the parameter that it was to fetch.
fn last_handled(script: &str) -> Option<(Handled, Option<Vec<u8>>)> {
    let mut last = None;
    traced(script, &Lent::PROGRAM, &mut |row| {
        if row.ended() {
            last = Some((row.handled, row.parameter().map(<[u8]>::to_vec)));
        }
    });
    last
}

#[test]
fn trace_tells_what_the_tilde_comes_to() {
    let cases = [
        ("$DEF,k,<~a>;$k;", Handled::Parameter(b'a')),
        ("$DEF,k,<~{>;$k;", Handled::FetchesNothing(Some(b'{'))),
        ("$DEF,k,<~,>;$k;", Handled::FetchesNothing(Some(b','))),
        ("$DEF,k,<~>;$k;", Handled::FetchesNothing(None)),
        ("$k~", Handled::Byte(b'~')),
    ];
    for (script, handled) in cases {
        assert_eq!(last_handled(script), Some((handled, None)), "{script}");
    }
    // Supplied, but too long for what is lent.
    let script = format!("$DEF,k,<$j~a>;$k,,,,,,,,,,{};", "x".repeat(9_000));
    let fetched = (Handled::Parameter(b'a'), Some(vec![b'x'; 9_000]));
    assert_eq!(last_handled(&script), Some(fetched));
}

#[test]
fn kinds_of_bytes() {
    let signs: Vec<u8> = (0..=255).filter(|&byte| Table::STANDARD.kind(byte) != 0).collect();
    assert_eq!(signs.len(), 6);
    assert_eq!(b"$,;~<>".map(|byte| Table::STANDARD.kind(byte)), [1, 2, 3, 4, 5, 6]);
}

#[test]
fn arithmetic() {
    use Operation::*;
    let results = [
        (Plus, "+5", "-0", "5"),
        (Plus, "-2147483648", "2147483647", "-1"),
        (Minus, "0", "0", "0"),
        (Minus, "-3", "-3", "0"),
        (Times, "-0", "7", "0"),
        (Times, "46341", "-46340", "-2147441940"),
        (Times, "-2147483648", "1", "-2147483648"),
        (Quot, "-7", "2", "-4"),
        (Quot, "-1", "2", "-1"),
        (Quot, "7", "-2", "-3"),
        (Rem, "-7", "2", "1"),
        (Rem, "7", "-2", "1"),
        (Rem, "-2147483648", "-1", "0"),
        (
            Plus,
            "-00000000002147483648",
            "+000000000000000000000000000000000000001",
            "-2147483647",
        ),
    ];
    for (operation, left, right, result) in results {
        let given = reckon(operation, left.as_bytes(), right.as_bytes());
        assert_eq!(given.as_deref().map(text), Ok(result), "{operation:?} {left} {right}");
    }
}

#[test]
fn arithmetic_refused() {
    use Operation::*;
    let refused = [
        (Plus, "", "1", 22),
        (Plus, "+", "1", 22),
        (Plus, "1", "-", 22),
        (Plus, "--1", "1", 22),
        (Plus, "1 ", "1", 22),
        (Plus, "1", "2147483648", 22),
        (Plus, "-2147483649", "1", 22),
        (Plus, "99999999999999999999999999", "1", 22),
        (Quot, "x", "0", 22),
        (Quot, "0", "0", 23),
        (Rem, "5", "-0", 23),
        (Quot, "-2147483648", "-1", 24),
        (Minus, "-2147483648", "1", 24),
        (Minus, "0", "-2147483648", 24),
        (Times, "65536", "32768", 24),
        (Times, "-2147483648", "-2147483648", 24),
    ];
    for (operation, left, right, outcome) in refused {
        let given = reckon(operation, left.as_bytes(), right.as_bytes());
        assert_eq!(given, Err(outcome), "{operation:?} {left} {right}");
    }
}
