//! Document 02's request Six: the script for given keys, its checks, and that there is none where quotes do not match.
use super::nameless::scripts;
use super::own_signs::{exchange, lent, moved, with};
use super::{line, BOUNDS, LITTLE};
use crate::ends::Sort;
use crate::keys::{number, script_for, unmatched, Made, Unmatched, LONGEST_WANTED};
use crate::scanning::{run_signs, Lent};
use crate::signs::{Checked, Table, LIMIT};
use crate::substitution::{substitute, Bounds};
use std::collections::BTreeSet;

const STANDARD: Checked = Ok(Table::STANDARD);

/// Signs exchanged among themselves, the quotes alone exchanged, and others.
const OTHERS: [&[u8; 6]; 4] = [b"><~;,$", b"$,;~><", b"#|:%[]", b"\x00\xff\x80\x7f\n "];

fn made(wanted: &str, output: usize) -> Made {
    script_for(&STANDARD, wanted.as_bytes(), output)
}

fn under(signs: &[u8; 6]) -> Checked {
    Table::accepted(&lent(signs))
}

#[test]
fn stored_rows() {
    for (wanted, output, outcome, script) in [
        ("START", 7, 0, "<START>"),
        ("START", 6, 5, ""),
        ("", 2, 0, "<>"),
        ("", 1, 5, ""),
        ("a<b>c", 7, 0, "<a<b>c>"),
        ("a<b", 20, 34, ""),
        ("a>b", 20, 34, ""),
        ("><", 20, 34, ""),
        ("$k,1;~2", 9, 0, "<$k,1;~2>"),
        ("<<>>", 6, 0, "<<<>>>"),
    ] {
        let made = made(wanted, output);
        assert_eq!(made.as_ref().err().copied().unwrap_or(0), outcome, "{wanted} {output}");
        assert_eq!(made.unwrap_or_default(), script.as_bytes(), "{wanted} {output}");
    }
}

#[test]
fn the_number_that_comes_back() {
    for (wanted, output, expected) in [
        ("START", 7, 7),
        ("", 2, 2),
        ("START", 6, 5 * 4_294_967_296),
        ("><", 0, 34 * 4_294_967_296),
        ("", LIMIT + 1, 2 * 4_294_967_296),
    ] {
        assert_eq!(number(&made(wanted, output)), expected, "{wanted} {output}");
    }
    let longest = "y".repeat(LONGEST_WANTED);
    assert_eq!(number(&made(&longest, LIMIT)), 65_536);
}

#[test]
fn sizes_at_the_limits() {
    let wanted = "y".repeat(LIMIT + 2);
    for length in [0, 1, 2, 255, 65_533, 65_534] {
        let made_with = |output| made(&wanted[..length], output).map(|script| script.len());
        assert_eq!(made_with(length + 2), Ok(length + 2));
        assert_eq!(made_with(LIMIT), Ok(length + 2));
        assert_eq!(made_with(length + 1), Err(5));
        assert_eq!(made_with(0), Err(5));
        assert_eq!(made_with(LIMIT + 1), Err(2));
        assert_eq!(made_with(usize::MAX), Err(2));
    }
    for length in [65_535, 65_536, 65_537, 65_538] {
        for output in [0, 1, 65_535, LIMIT, LIMIT + 1] {
            assert_eq!(made(&wanted[..length], output), Err(2), "{length} {output}");
        }
    }
}

#[test]
fn order_of_the_checks() {
    let mut long = vec![b'y'; LONGEST_WANTED + 1];
    long[7] = b'>';
    // 2 before 34 and 5, and 34 before 5.
    assert_eq!(script_for(&STANDARD, &long, 0), Err(2));
    assert_eq!(script_for(&STANDARD, &long[1..], 0), Err(34));
    assert_eq!(script_for(&STANDARD, &long[8..], 0), Err(5));
    assert_eq!(made("a<", LIMIT + 1), Err(2));
    assert_eq!(made("a<", LIMIT), Err(34));
    assert_eq!(made("a<", 0), Err(34));
    assert_eq!(made("a", 0), Err(5));
    // Those of the signs stand between 2 and 34.
    for (signs, outcome) in [
        (vec![0; 255], 30),
        (with(b'!', 7), 30),
        (with(b'<', 0), 31),
        (with(b'A', 1), 31),
        (moved(5, b'A'), 32),
        (moved(1, b'*'), 32),
    ] {
        let signs = Table::accepted(&signs);
        assert_eq!(script_for(&signs, &long, 0), Err(2));
        assert_eq!(script_for(&signs, b"", LIMIT + 1), Err(2));
        for wanted in [&b"a<"[..], b">", b"a", b""] {
            assert_eq!(script_for(&signs, wanted, 0), Err(outcome));
            assert_eq!(script_for(&signs, wanted, LIMIT), Err(outcome));
        }
    }
}

#[test]
fn scripts_for_other_signs() {
    let other = under(b"#|:%[]");
    for (wanted, script) in [
        (&b""[..], Ok(&b"[]"[..])),
        (b"a<b", Ok(b"[a<b]")),
        (b"><", Ok(b"[><]")),
        (b"a[b]", Ok(b"[a[b]]")),
        (b"#k|1:%2", Ok(b"[#k|1:%2]")),
        (b"a[b", Err(34)),
        (b"][", Err(34)),
    ] {
        assert_eq!(script_for(&other, wanted, 9), script.map(<[u8]>::to_vec));
    }
    // The quotes alone exchanged.
    let exchanged = under(b"$,;~><");
    assert_eq!(script_for(&exchanged, b"><", 4), Ok(b">><<".to_vec()));
    assert_eq!(script_for(&exchanged, b"<>", 4), Err(34));
    assert_eq!(script_for(&exchanged, b"><", 3), Err(5));
}

#[test]
fn places_of_quotes_that_do_not_match() {
    for (wanted, place) in [
        ("", None),
        ("a<b<>c>", None),
        (">", Some(Unmatched::Unquote(0))),
        ("><", Some(Unmatched::Unquote(0))),
        ("<>>", Some(Unmatched::Unquote(2))),
        ("<", Some(Unmatched::Quote(0))),
        ("<<>", Some(Unmatched::Quote(0))),
        ("<><a", Some(Unmatched::Quote(2))),
    ] {
        assert_eq!(unmatched(&Table::STANDARD, wanted.as_bytes()), place, "{wanted}");
    }
}

/// "expanding it finishes with outcome 0 and the wanted bytes": by both halves, in exactly what it needs.
fn hold_expansion(signs: &Checked, wanted: &[u8]) {
    let script = script_for(signs, wanted, LIMIT).expect("a script");
    let length = wanted.len();
    let enough = Lent {
        cells: 0,
        output: length,
        allowance: length as u64 + 3,
        numbers: None,
    };
    let end = run_signs(signs, &script, &enough);
    assert_eq!(line(&end), format!("0 {} {length} {} 0 0", length + 2, length + 3));
    assert!(end.output == wanted, "{}", wanted.escape_ascii());
    assert_eq!(run_signs(signs, &script, &Lent::PROGRAM), end);
    let table = signs.as_ref().expect("accepted");
    assert_eq!(substitute(&script, table, &BOUNDS), Some(end));
    hold_want(signs, &script, &enough);
}

/// With a scan or a byte of output fewer than enough the run stops for want of it.
fn hold_want(signs: &Checked, script: &[u8], enough: &Lent) {
    let outcome = |lent: Lent| run_signs(signs, script, &lent).report.outcome;
    let allowance = enough.allowance - 1;
    assert_eq!(outcome(Lent { allowance, ..*enough }), 3);
    if let Some(output) = enough.output.checked_sub(1) {
        assert_eq!(outcome(Lent { output, ..*enough }), 5);
    }
}

/// Under the standard signs and under the others, with what is wanted written in them.
fn hold_expansions(wanted: &[u8]) {
    hold_expansion(&STANDARD, wanted);
    for signs in OTHERS {
        hold_expansion(&under(signs), &exchange(wanted, signs));
    }
}

#[test]
fn scripts_expand_to_what_is_wanted() {
    for wanted in [
        "",
        "START",
        "a<b>c",
        "<<>><>",
        "$k,1;~2",
        "$DEF,k,<p~1>;$k,7;",
        ",;~$",
        "<$>;",
    ] {
        hold_expansions(wanted.as_bytes());
    }
    for byte in (0..=255).filter(|byte| !b"<>".contains(byte)) {
        hold_expansions(&[byte]);
        hold_expansions(&[b'<', byte, byte, b'>', byte]);
    }
    let all: Vec<u8> = (0..=255).filter(|byte| !b"<>".contains(byte)).collect();
    hold_expansions(&all);
}

#[test]
fn long_scripts_expand_to_what_is_wanted() {
    for length in [255, 256, 257, 32_767, 65_533, LONGEST_WANTED] {
        hold_expansions(&b"$y,<,>;~".repeat(length / 8 + 1)[..length - length % 8]);
        hold_expansions(&vec![b'y'; length]);
    }
    for depth in [127, 128, 255, 256, 32_767] {
        hold_expansions(&[b"<".repeat(depth), b">".repeat(depth)].concat());
        hold_expansions(&b"<>".repeat(depth));
    }
}

/// Deep quotes that all but match.
#[test]
fn deep_quotes_that_do_not_match() {
    for depth in [127, 128, 255, 256, 32_766] {
        let (quotes, unquotes) = ("<".repeat(depth), ">".repeat(depth));
        for wanted in [
            format!("{quotes}<{unquotes}"),
            format!("{quotes}{unquotes}>"),
            format!("{unquotes}{quotes}"),
            quotes.clone(),
            unquotes.clone(),
        ] {
            assert_eq!(made(&wanted, LIMIT), Err(34), "{depth}");
            assert_eq!(made(&wanted, 0), Err(34), "{depth}");
        }
    }
}

/// Whether quotes match, by taking out pairs with nothing but plain bytes between them until none is left.
fn matched(bytes: &[u8], quote: u8, unquote: u8) -> bool {
    let mut quotes: Vec<u8> = bytes.to_vec();
    quotes.retain(|&byte| byte == quote || byte == unquote);
    while let Some(place) = quotes.windows(2).position(|pair| pair == [quote, unquote]) {
        quotes.drain(place..place + 2);
    }
    quotes.is_empty()
}

/// The outputs that these texts finish with by scanning, which are those of substitution.
fn outputs(texts: impl Iterator<Item = String>, signs: &[u8; 6]) -> BTreeSet<Vec<u8>> {
    const FEW: Bounds = Bounds { scans: 500, ..BOUNDS };
    let table = under(signs);
    let mut outputs = BTreeSet::new();
    for text in texts {
        let text = exchange(text.as_bytes(), signs);
        let end = run_signs(&table, &text, &LITTLE);
        if end.report.is(Sort::Finish) {
            let substituted = substitute(&text, table.as_ref().expect("accepted"), &FEW);
            assert_eq!(substituted.as_ref(), Some(&end), "{}", text.escape_ascii());
            outputs.insert(end.output);
        }
    }
    outputs
}

/// No text finishes with output whose quotes do not match, under the standard signs and under others.
fn hold_outputs(texts: &[String], at_least: usize) -> BTreeSet<Vec<u8>> {
    let hold = |signs: &[u8; 6]| {
        let outputs = outputs(texts.iter().cloned(), signs);
        for output in &outputs {
            assert!(matched(output, signs[4], signs[5]), "{}", output.escape_ascii());
            assert_eq!(unmatched(under(signs).as_ref().expect("accepted"), output), None);
        }
        assert!(outputs.len() >= at_least, "{}", outputs.len());
        outputs
    };
    hold(OTHERS[2]);
    hold(OTHERS[0]);
    hold(b"$,;~<>")
}

/// Every text of up to six pieces, and every body of up to five with a parameter that is quotes.
fn texts_and_bodies() -> [Vec<String>; 2] {
    let texts = scripts(&["<", ">", "a", "$", "$DEF,a,", ",", ";", "~1"], 6);
    let bodies = scripts(&["<", ">", "~1", "$VAL,k", "$k,", ",", ";"], 5);
    let in_a_call = |body: &String| format!("$DEF,k,<{body}>;$DEF,a,<<>~1>;a$k,<<$>>;$a,b;");
    [texts, bodies.iter().map(in_a_call).collect()]
}

#[test]
fn no_text_finishes_with_quotes_that_do_not_match() {
    let [texts, bodies] = texts_and_bodies();
    assert_eq!((texts.len(), bodies.len()), (299_593, 19_608));
    hold_outputs(&texts, 2_000);
    hold_outputs(&bodies, 200);
}

/// Every built-in with quotes in its parameters, cut at any byte, with anything after it.
#[test]
fn no_built_in_gives_quotes_that_do_not_match() {
    let whole = [
        "$DEF,k,<<a>>;$k;$VAL,k;$UPDATE,k,<<>>;$k;",
        "$DEF,k,<<a><b>>;$UPDATE,k,<<>~0>;<$k;>$k,<<<>>>;",
        "$IF,1,<<a<b>>>;$SEQ,<<>>,<<>>;$SIZE,<<>>;$IF,<1>,<>;",
        "$DEF,f,<$~1,<~2>;~2>;$f,VAL,f;$f,SIZE,<<>>;$f,IF,1,<<>>;",
        "$DEF,a,<<~1>~1<~1>>;$a,<<>>;$DEF,b,<,>;$a,$b;<,>$b;;",
    ];
    let mut texts = Vec::new();
    for script in whole {
        for (place, end) in (0..=script.len()).flat_map(|place| (place..=script.len()).map(move |end| (place, end))) {
            texts.push(format!("{}{}", &script[..place], &script[end..]));
        }
    }
    hold_outputs(&texts, 250);
}

/// "It answers that there is none precisely when no script of any length finishes with those bytes as its output".
#[test]
fn none_where_no_text_was_found() {
    let [mut texts, bodies] = texts_and_bodies();
    texts.extend(bodies);
    let found = outputs(texts.into_iter(), b"$,;~<>");
    let (mut none, mut some) = (0, 0);
    for wanted in scripts(&["<", ">", "a", "$"], 7) {
        match made(&wanted, LIMIT) {
            Ok(_) => {
                hold_expansion(&STANDARD, wanted.as_bytes());
                some += 1;
            }
            Err(outcome) => {
                assert_eq!(outcome, 34, "{wanted}");
                assert!(!found.contains(wanted.as_bytes()), "{wanted}");
                assert!(!matched(wanted.as_bytes(), b'<', b'>'), "{wanted}");
                none += 1;
            }
        }
    }
    assert_eq!((some, none), (2_055, 19_790));
    assert!(found.iter().all(|output| script_for(&STANDARD, output, LIMIT).is_ok()));
}
