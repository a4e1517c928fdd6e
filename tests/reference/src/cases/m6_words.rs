//! Document 02's request Four: SEQ, SIZE and IF against both halves, with reports worked out by hand.
use super::{charges, check, check_lent, check_outcomes, end, is, line, standing, substituted, text, traced, BOUNDS};
use crate::scanning::{run, run_signs, Lent};
use crate::signs::{Table, LIMIT};
use crate::substitution::substitute;

/// The longest lists.
const MANY: Lent = Lent {
    cells: LIMIT,
    ..Lent::PROGRAM
};

#[test]
fn table_of_request_four() {
    check(&[
        ("$SEQ,ab,ab;$SEQ,ab,abc;$SEQ,,;", "0 30 3 31 15 0", "101"),
        ("$SIZE,;$SIZE,abc;$SIZE,<,,,>,x;", "0 31 3 32 15 0", "033"),
        ("$IF,0,a,1,b,1,c;|$IF,0,a,1;|$IF,1,x;|", "0 37 5 38 19 0", "b||x|"),
        ("$DEF,k,<[~1]>;$k,$IF,01,a,,b;;", "0 30 2 35 31 1", "[]"),
        ("$IF,1;", "13 6 0 6 9 0", ""),
        ("$SEQ,a;", "13 7 0 7 10 0", ""),
        ("$SIZE;", "13 6 0 6 9 0", ""),
        ("$VAL,IF;", "19 8 0 8 11 0", ""),
        ("$UPDATE,SEQ,x;", "19 14 0 14 17 0", ""),
        ("$DEF,IF,<mine~1>;$IF,2;", "0 23 5 30 22 1", "mine2"),
        (
            "$DEF,k,<[~1|~2]>;$k,$IF,$SEQ,a,a;,<x,y>;,$SIZE,abcd;;",
            "0 53 7 60 39 1",
            "[x,y|4]",
        ),
        ("$DEF,j,J;$IF,1,<$j;>;", "0 21 3 22 20 1", "$j;"),
    ]);
}

#[test]
fn table_of_request_four_by_scanning_alone() {
    check_lent(&[
        ("$k,$IF,1,abcdef;;", 27, 65_536, "4 16 0 16 22 0"),
        ("$IF,1,abcdef;", 16_384, 5, "5 13 0 13 16 0"),
    ]);
}

/// What a call with this list gives: the name and the parameters are written in quotes.
fn given(list: &[&[u8]]) -> Vec<u8> {
    let items: Vec<Vec<u8>> = list.iter().map(|item| [b"<", *item, b">"].concat()).collect();
    let script = [b"$", items.join(&b',').as_slice(), b";"].concat();
    let scanned = run(&script, &MANY);
    assert_eq!(substitute(&script, &Table::STANDARD, &BOUNDS).as_ref(), Some(&scanned));
    assert_eq!(scanned.report.outcome, 0, "{}", script.escape_ascii());
    scanned.output
}

#[test]
fn strings_that_are_the_same() {
    let all: Vec<u8> = (0..=255).filter(|byte| !b"<>".contains(byte)).collect();
    let long = [b'y'; 9_000];
    let strings: [&[u8]; 9] = [b"", b"a", b"0", b"1", b"<a>", b"$,;~", b"\x80\xff", &all, &long];
    for (place, left) in strings.iter().enumerate() {
        for (other, right) in strings.iter().enumerate() {
            let same: &[u8] = if place == other { b"1" } else { b"0" };
            assert_eq!(given(&[b"SEQ", left, right]), same, "{place} {other}");
        }
    }
}

#[test]
fn strings_that_are_nearly_the_same() {
    let long = [b'y'; 300];
    let last = [&long[1..], b"z"].concat();
    let first = [b"z", &long[1..]].concat();
    let pairs: [(&[u8], &[u8]); 12] = [
        (b"ab", b"abc"),
        (b"abc", b"abd"),
        (b"abc", b"bbc"),
        (b"abc", b"ABC"),
        (b"a", b"a "),
        (b"1", b"01"),
        (b"\x00", b""),
        (b"a\x00", b"a"),
        (b"\x80", b"\xff"),
        (b"A", b"\xc1"),
        (&long, &last),
        (&long, &first),
    ];
    for (left, right) in pairs {
        assert_eq!(given(&[b"SEQ", left, right]), b"0", "{}", left.escape_ascii());
        assert_eq!(given(&[b"SEQ", right, left]), b"0", "{}", left.escape_ascii());
    }
    assert_eq!(given(&[b"SEQ", &last, &last, &first]), b"1");
}

#[test]
fn one_byte_beside_every_other() {
    let plain = |byte: &u8| !b"<>".contains(byte);
    for left in (0..=255).filter(plain) {
        for right in (0..=255).filter(plain).step_by(5) {
            let same = if left == right { b"1" } else { b"0" };
            assert_eq!(given(&[b"SEQ", &[left], &[right]]), same, "{left} {right}");
        }
    }
}

#[test]
fn lengths() {
    let text = vec![b'y'; 65_000];
    for length in (0..=1_100).chain([9_998, 9_999, 10_000, 10_001, 32_767, 32_768, 65_000]) {
        let size = length.to_string();
        assert_eq!(given(&[b"SIZE", &text[..length]]), size.as_bytes());
    }
    // The second is surplus; of what is in quotes the bytes count, and inner quotes are bytes.
    assert_eq!(given(&[b"SIZE", b"ab", b"cdefg"]), b"2");
    assert_eq!(given(&[b"SIZE", b"<,>;\x80\xff"]), b"6");
}

#[test]
fn reports_of_lengths() {
    // The list is charged 4, the name 4, one for the comma, one for each byte and one for `;`.
    for (length, report) in [
        (0, "0 9 1 10 10 0"),
        (9, "0 18 1 19 19 0"),
        (10, "0 19 2 20 20 0"),
        (99, "0 108 2 109 109 0"),
        (100, "0 109 3 110 110 0"),
        (65_000, "0 65009 5 65010 65010 0"),
    ] {
        let script = format!("$SIZE,<{}>;", "y".repeat(length));
        let end = run(script.as_bytes(), &MANY);
        assert_eq!(line(&end), report);
        assert_eq!(substituted(&script, &BOUNDS), Some(end));
    }
}

#[test]
fn firsts_that_are_not_exactly_1() {
    check_outcomes(&[
        ("$IF,1 ,a;", 0, ""),
        ("$IF, 1,a;", 0, ""),
        ("$IF,11,a;", 0, ""),
        ("$IF,+1,a;", 0, ""),
        ("$IF,01,a;", 0, ""),
        ("$IF,1.,a;", 0, ""),
        ("$IF,0,a;", 0, ""),
        ("$IF,,a;", 0, ""),
        ("$IF,x,a;", 0, ""),
        ("$IF,<<1>>,a;", 0, ""),
        // These are: quotes are dropped, and what is given is a `1` like any other.
        ("$IF,<1>,a;", 0, "a"),
        ("$IF,<>1<>,a;", 0, "a"),
        ("$IF,$SIZE,x;,a;", 0, "a"),
        ("$IF,$-,3,2;,a;", 0, "a"),
        ("$IF,$DEF,m,z;1,a;", 0, "a"),
    ]);
}

#[test]
fn pairs_from_the_left() {
    check_outcomes(&[
        ("$IF,1,a,1,b;", 0, "a"),
        ("$IF,0,1,1,b;", 0, "b"),
        ("$IF,0,1,b;", 0, ""),
        ("$IF,1,a,1;", 0, "a"),
        ("$IF,0,a,1;", 0, ""),
        // A second is not asked, and an empty one is given.
        ("$IF,1,1;", 0, "1"),
        ("$IF,1,;", 0, ""),
        ("$IF,1,,1,b;", 0, ""),
        // Commas in quotes belong to the second; those of a body divide.
        ("$IF,0,<1,x>,1,<a,b,c>,1,d;", 0, "a,b,c"),
        ("$DEF,k,<0,x,1>;$IF,$k;,b;", 0, "b"),
        ("$DEF,k,<0,1>;$IF,$VAL,k;,a,1,b;", 0, "b"),
    ]);
    for pairs in 1..=20 {
        let before = ",0,x".repeat(pairs - 1);
        let after = ",1,y".repeat(20 - pairs);
        let script = format!("$IF{before},1,this{after},1;");
        assert_eq!(text(&end(&script).output), "this", "{script}");
    }
}

#[test]
fn results_are_charged_and_placed_like_those_of_val() {
    check(&[
        // `$a,` is 6. SEQ: 11 more, `;`, and a byte. SIZE: 19 more, `;` and two. IF: 12 more, `;` and three.
        ("$a,$SEQ,x,y;;", "15 13 0 13 19 0", ""),
        ("$a,$SIZE,xxxxxxxxxx;;", "15 21 0 21 28 0", ""),
        ("$a,$IF,1,xyz;;", "15 14 0 14 22 0", ""),
        // Nothing is charged for nothing.
        ("$a,$IF,0,xyz;;", "15 14 0 14 19 0", ""),
        // Written, they are not charged.
        ("$SEQ,x,y;", "0 9 1 10 12 0", "0"),
        ("$SIZE,xxxxxxxxxx;", "0 17 2 18 20 0", "10"),
        ("$IF,1,xyz;", "0 10 3 11 13 0", "xyz"),
    ]);
    // 19 with its `;` and 22 with the result; the list of 13 goes.
    let with_result = [4, 5, 6, 10, 11, 12, 13, 14, 15, 16, 17, 18, 9, 9];
    assert_eq!(charges("$a,$IF,1,xyz;"), with_result);
    let with_nothing = [4, 5, 6, 10, 11, 12, 13, 14, 15, 16, 17, 18, 6, 6];
    assert_eq!(charges("$a,$IF,0,xyz;"), with_nothing);
}

#[test]
fn results_are_not_scanned() {
    check_outcomes(&[
        ("$IF,1,<$a,~1;>;", 0, "$a,~1;"),
        ("$DEF,k,<[~1|~2]>;$k,$IF,1,<a,b>;,c;", 0, "[a,b|c]"),
        ("$DEF,j,J;$DEF,k,<~1>;$k,$IF,1,<$j;>;;", 0, "$j;"),
        ("$IF,1,<<a>>;", 0, "<a>"),
        // In a name and in a body.
        ("$DEF,j,J;$$IF,0,k,1,j;;", 0, "J"),
        ("$DEF,1,one;$$SEQ,a,a;;", 0, "one"),
        ("$DEF,t,<$IF,$SEQ,~1,a;,yes,1,no;>;$t,a;$t,b;", 0, "yesno"),
    ]);
}

#[test]
fn last_cell_and_one_short() {
    check_lent(&[
        ("$a,$SEQ,x,y;", 19, 0, "18 12 0 13 19 0"),
        ("$a,$SEQ,x,y;", 18, 0, "4 12 0 12 18 0"),
        ("$a,$SEQ,x,y;", 17, 0, "4 12 0 12 17 0"),
        // Whole or not at all: one of the two digits would have its cell.
        ("$a,$SIZE,xxxxxxxxxx;", 28, 0, "18 20 0 21 28 0"),
        ("$a,$SIZE,xxxxxxxxxx;", 27, 0, "4 20 0 20 26 0"),
        ("$a,$SIZE,xxxxxxxxxx;", 26, 0, "4 20 0 20 26 0"),
        ("$a,$SIZE,xxxxxxxxxx;", 25, 0, "4 20 0 20 25 0"),
        ("$a,$IF,1,xyz;", 22, 0, "18 13 0 14 22 0"),
        ("$a,$IF,1,xyz;", 21, 0, "4 13 0 13 19 0"),
        ("$a,$IF,1,xyz;", 19, 0, "4 13 0 13 19 0"),
        ("$a,$IF,1,xyz;", 18, 0, "4 13 0 13 18 0"),
        ("$a,$IF,0,xyz;", 19, 0, "18 13 0 14 19 0"),
        ("$a,$IF,0,xyz;", 18, 0, "4 13 0 13 18 0"),
    ]);
}

#[test]
fn last_byte_of_output_and_one_short() {
    check_lent(&[
        ("$SEQ,,;", 10, 1, "0 7 1 8 10 0"),
        ("$SEQ,,;", 10, 0, "5 7 0 7 10 0"),
        ("$SIZE,xxxxxxxxxx;", 20, 2, "0 17 2 18 20 0"),
        ("$SIZE,xxxxxxxxxx;", 20, 1, "5 17 0 17 20 0"),
        ("$IF,1,xyz;", 13, 3, "0 10 3 11 13 0"),
        ("$IF,1,xyz;", 13, 2, "5 10 0 10 13 0"),
        ("$IF,0,xyz;", 13, 0, "0 10 0 11 13 0"),
        ("$IF,1,;", 10, 0, "0 7 0 8 10 0"),
    ]);
}

#[test]
fn order_of_checks() {
    check_lent(&[
        // The 4 of the own cell before 13, and 13 before all else.
        ("$IF,1;", 8, 0, "4 6 0 6 8 0"),
        ("$IF,1;", 9, 0, "13 6 0 6 9 0"),
        ("$SEQ,a;", 9, 0, "4 7 0 7 9 0"),
        ("$SEQ,a;", 10, 0, "13 7 0 7 10 0"),
        ("$SIZE;", 8, 0, "4 6 0 6 8 0"),
        ("$SIZE;", 9, 0, "13 6 0 6 9 0"),
        ("$a,$IF,1;", 15, 0, "13 9 0 9 15 0"),
    ]);
    check_outcomes(&[
        ("$IF;", 13, ""),
        ("$SEQ;", 13, ""),
        ("$IF,;", 13, ""),
        ("$SIZE,;", 0, "0"),
        ("$SEQ,,;", 0, "1"),
        ("$IF,,;", 0, ""),
        ("$IF,0,a,b,c,d,e;", 0, ""),
    ]);
}

#[test]
fn built_ins_under_every_rule() {
    for name in ["SEQ", "SIZE", "IF"] {
        check_outcomes(&[
            (&format!("$VAL,{name};"), 19, ""),
            (&format!("$UPDATE,{name},;"), 19, ""),
            (&format!("$DEF,{name},<[~1]>;${name},1;$VAL,{name};"), 0, "[1][~1]"),
            (&format!("$DEF,{name},abc;$UPDATE,{name},x;${name};"), 0, "x"),
            // It is hidden while the list stands that has the definition.
            (&format!("$VAL,{name}$DEF,{name},x;;$VAL,{name};"), 19, "x"),
            (&format!("$q{name};"), 15, ""),
            (&format!("${};", name.to_lowercase()), 15, ""),
        ]);
    }
    assert_eq!(standing("$IF,1,a;$SEQ,a,a;$SIZE,a;"), []);
    assert_eq!(standing("$DEF,IF,ab;$UPDATE,IF,c;"), [is("IF", "c", 2)]);
}

#[test]
fn definitions_in_their_lists_go() {
    check(&[
        // The list of 9 and DEF's of 12; DEF's becomes a definition of 6.
        ("$IF,1,$DEF,m,z;x;$m;", "15 20 1 20 21 0", "x"),
        ("$SIZE,$DEF,m,z;x;$m;", "15 20 1 20 21 0", "1"),
        ("$SEQ,,$DEF,m,z;x;$m;", "15 20 1 20 21 0", "0"),
    ]);
    check_outcomes(&[
        // In a pair that is not chosen, in a first and in a surplus parameter.
        ("$IF,0,$DEF,m,z;,1,x;$m;", 15, "x"),
        ("$IF,$DEF,m,z;0,x;$m;", 15, ""),
        ("$SIZE,x,$DEF,m,z;;$m;", 15, "1"),
        // Those made by a body on behalf of a list go as well.
        ("$DEF,mk,<$DEF,m,z;>;$IF,1,$mk;x;$m;", 15, "x"),
        // The name was looked up before the list goes.
        ("$SIZE,$DEF,SIZE,<~1~1>;x;$SIZE,abc;", 0, "xx3"),
    ]);
}

/// Examples of M6's own paper, under its signs but for `$`, which is here `~`; and a choice by its IF.
#[test]
fn examples_of_m6() {
    let mut kinds = vec![0; 256];
    for (kind, sign) in (1..).zip(b"#,:~<>") {
        kinds[usize::from(*sign)] = kind;
    }
    let table = Table::accepted(&kinds);
    let script = b"#SEQ,ABC,AB:#SEQ,1,#SEQ,1,1::;#IF,0,arg2,1,arg4:;#SIZE,NOW IS THE HOUR:;\
        #DEF,t,<#IF,#SEQ,~1,A:,~1,1,<~2>:>:#t,A,B:;#t,C,B:";
    let end = run_signs(&table, script, &Lent::PROGRAM);
    assert_eq!(text(&end.output), "01;arg4;15;A;~2");
    assert_eq!(substitute(script, &table.expect("accepted"), &BOUNDS), Some(end));
}

/// The lists that built-ins acted on, scan by scan; a refused one last.
fn applied(script: &str) -> Vec<String> {
    let mut lists = Vec::new();
    traced(script, &Lent::PROGRAM, &mut |row| {
        lists.extend(row.applied().map(|list| text(&list.join(&b'/')).to_string()));
    });
    lists
}

#[test]
fn trace_tells_what_built_ins_act_on() {
    assert_eq!(
        applied("$DEF,k,<~1>;$k,$SEQ,a,<b,c>;;$IF,1;"),
        ["DEF/k/~1", "SEQ/a/b,c", "IF/1"]
    );
    // A body is not a built-in's, and in quotes or in the text `;` applies nothing.
    assert_eq!(applied("$DEF,IF,x;$IF,1,2;;<;>$SIZE,<;"), ["DEF/IF/x"]);
    assert_eq!(applied("$IF,1,$VAL,k;;"), ["VAL/k"]);
}

/// Every list of up to so many of these parameters.
fn lists(most: usize) -> Vec<Vec<&'static str>> {
    const PARAMETERS: [&str; 5] = ["1", "0", "", "11", "a"];
    let mut lists = vec![Vec::new()];
    let mut longest = lists.clone();
    for _ in 0..most {
        let longer = |list: &Vec<&'static str>| PARAMETERS.map(|one| [&list[..], &[one]].concat());
        longest = longest.iter().flat_map(longer).collect();
        lists.extend(longest.clone());
    }
    lists
}

/// IF, said from the right: what is to the right is given unless the pair before it is taken.
fn plainly_chosen(list: &[&'static str]) -> &'static str {
    let pairs = list.len() / 2;
    (0..pairs).rev().fold("", |rest, pair| match list[2 * pair] {
        "1" => list[2 * pair + 1],
        _ => rest,
    })
}

/// The outcome and the output of one of the three with a list of parameters.
fn plainly(word: &str, list: &[&'static str]) -> (u64, String) {
    match (word, list) {
        ("SIZE", [parameter, ..]) => (0, parameter.len().to_string()),
        ("SEQ", [left, right, ..]) => (0, u8::from(left == right).to_string()),
        ("IF", [_, _, ..]) => (0, plainly_chosen(list).to_string()),
        _ => (13, String::new()),
    }
}

#[test]
fn every_short_list() {
    for list in lists(6) {
        for word in ["SEQ", "SIZE", "IF"] {
            let script = format!("${};", [&[word], &list[..]].concat().join(","));
            let end = end(&script);
            let told = (end.report.outcome, text(&end.output).to_string());
            assert_eq!(told, plainly(word, &list), "{script}");
            // The charge is that of the list, with its `;`.
            assert_eq!(end.report.most, script.len() as u64 + 3, "{script}");
        }
    }
}

/// One of the three within another, collected and written: what the inner one gives is a parameter like any other.
#[test]
fn every_short_list_within_another() {
    for list in lists(3) {
        for (inner, outer) in [
            ("SEQ", "IF"),
            ("IF", "IF"),
            ("IF", "SEQ"),
            ("SIZE", "SEQ"),
            ("IF", "SIZE"),
        ] {
            let call = format!("${};", [&[inner], &list[..]].concat().join(","));
            let script = format!("${outer},{call},{call},1,z;");
            let end = end(&script);
            let (outcome, given) = plainly(inner, &list);
            let expected = match outer {
                _ if outcome > 0 => "",
                "SEQ" => "1",
                "SIZE" => &given.len().to_string(),
                _ if given == "1" => "1",
                _ => "z",
            };
            assert_eq!((end.report.outcome, text(&end.output)), (outcome, expected), "{script}");
        }
    }
}
