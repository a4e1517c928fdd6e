//! Document 02's request Eight: origins and rules worked out by hand, those of many short scripts read off the trace
//! and held to what the request says of them, and the checks.
use super::nameless::scripts;
use super::own_signs::{lent, moved, with};
use super::{end, line, text, traced, A, BOUNDS};
use crate::ends::{sort, End, Sort};
use crate::origins::Numbers;
use crate::scanning::{run_signs, Handled, Lent, Row};
use crate::signs::{Checked, Table, LIMIT};
use crate::substitution::substitute;

const STANDARD: Checked = Ok(Table::STANDARD);

/// An origin for each byte of an output, and its rules as digits.
fn hold(end: &End, output: &str, origins: &[u32], rules: &str, script: &str) {
    assert_eq!(text(&end.output), output, "{script}");
    assert_eq!(end.origins, origins, "{script}");
    let digits: String = end.rules.iter().map(u32::to_string).collect();
    assert_eq!(digits, rules, "{script}");
}

/// Each script with its output, its origins and its rules; by both halves.
fn check(cases: &[(&str, &str, &[u32], &str)]) {
    for (script, output, origins, rules) in cases {
        hold(&end(script), output, origins, rules, script);
    }
}

fn spaced(numbers: &[u32]) -> String {
    let numbers: Vec<String> = numbers.iter().map(u32::to_string).collect();
    numbers.join(" ")
}

#[test]
fn stored_rows() {
    for (script, report, output, origins, rules) in [
        (
            "a,$DEF,v,V;$DEF,k,<b,~1$VAL,v;$SIZE,xx;>;$k,c;$IF,1,<d>;",
            "0 56 8 77 53 2",
            "a,b,cV2d",
            "1 2 46 46 46 46 46 56",
            "1 1 2 2 3 4 5 5",
        ),
        ("x<y,z>~1", "0 8 6 9 0 0", "xy,z~1", "1 3 4 5 7 8", "1 1 1 1 1 1"),
        (
            "$DEF,k,<(~1)>;$k,ab;$k,$k,cd;;",
            "0 30 10 43 29 1",
            "(ab)((cd))",
            "20 20 20 20 30 30 30 30 30 30",
            "2 3 3 2 2 3 3 3 3 2",
        ),
        ("ab$DEF,k,<c$j;>;$k;", "15 19 3 23 22 1", "abc", "1 2 19", "1 1 2"),
        ("$DEF,k,v;", "0 9 0 10 12 1", "", "", ""),
    ] {
        let end = end(script);
        assert_eq!((line(&end).as_str(), text(&end.output)), (report, output), "{script}");
        assert_eq!(
            (spaced(&end.origins), spaced(&end.rules)),
            (origins.into(), rules.into())
        );
    }
}

#[test]
fn copied_from_the_text() {
    check(&[
        ("", "", &[], ""),
        ("ab", "ab", &[1, 2], "11"),
        ("p>q", "p", &[1], "1"),
        // Signs that are copied.
        ("a,;~1", "a,;~1", &[1, 2, 3, 4, 5], "11111"),
        (",;~", ",;~", &[1, 2, 3], "111"),
        // The outermost quotes are read and not copied.
        ("<a<b>c>", "a<b>c", &[2, 3, 4, 5, 6], "11111"),
        ("<>a<><$>", "a$", &[3, 7], "11"),
        ("<$k,~1;>", "$k,~1;", &[2, 3, 4, 5, 6, 7], "111111"),
        // Before, between and after calls.
        ("a$DEF,k,<b>;c$k;d", "acbd", &[1, 13, 16, 17], "1121"),
        ("$DEF,k,v;;$k;;", ";v;", &[10, 13, 14], "121"),
    ]);
}

#[test]
fn copied_from_a_body() {
    check(&[
        ("$DEF,k,<ab>;$k;", "ab", &[15, 15], "22"),
        // A comma with no call open, in quotes too, and quotes in quotes.
        ("$DEF,k,<a,b>;$k;", "a,b", &[16; 3], "222"),
        ("$DEF,k,<<a,>>;$k;", "a,", &[17; 2], "22"),
        ("$DEF,k,<<a<b>c>>;$k;", "a<b>c", &[20; 5], "22222"),
        ("$DEF,k,<<~1$j;>>;$k;", "~1$j;", &[20; 5], "22222"),
        // Each call has its own `;`.
        ("$DEF,k,a;$k;$k;b$k;", "aaba", &[12, 15, 16, 19], "2212"),
        // In a body nothing of the text is read, whatever is defined and called there.
        (
            "$DEF,k,<a$DEF,m,<b>;$m;c>;x$k;y",
            "xabcy",
            &[27, 30, 30, 30, 31],
            "12221",
        ),
    ]);
}

#[test]
fn fetched() {
    check(&[
        // The name, several bytes, none, and one past nine.
        ("$DEF,k,<~0~1~2>;$k,ab,c;", "kabc", &[24; 4], "3333"),
        ("$DEF,k,<[~1]>;$k,;", "[]", &[18; 2], "22"),
        ("$DEF,k,<~a>;$k,,,,,,,,,,xy;", "xy", &[27; 2], "33"),
        // What is fetched may be a sign or have quotes.
        ("$DEF,k,<~1>;$k,<,;~<$>>;", ",;~<$>", &[24; 6], "333333"),
        ("$DEF,k,<a~1b>;$k,xyz;", "axyzb", &[21; 5], "23332"),
        // The first call reads 20 bytes of the text, the second 25.
        (
            "$DEF,k,<~1~1>;$k,ab;$k,c;",
            "ababcc",
            &[20, 20, 20, 20, 25, 25],
            "333333",
        ),
    ]);
}

#[test]
fn given_by_val() {
    check(&[
        ("$DEF,k,abc;$VAL,k;", "abc", &[18; 3], "444"),
        ("$DEF,k,<a,~1>;$VAL,k;x", "a,~1x", &[21, 21, 21, 21, 22], "44441"),
        ("$DEF,k,;$VAL,k;", "", &[], ""),
        ("$DEF,k,ab;$UPDATE,k,c;$VAL,k;", "c", &[29], "4"),
        // In a body, and in one within that.
        ("$DEF,v,VW;$DEF,k,<$VAL,v;>;$k;", "VW", &[30; 2], "44"),
        ("$DEF,v,V;$DEF,i,<$VAL,v;>;$DEF,k,<a$i;>;$k;", "aV", &[43; 2], "24"),
        // Of the body that is read.
        ("$DEF,k,<a$VAL,k;>;$k;", "aa$VAL,k;", &[21; 9], "244444444"),
    ]);
}

#[test]
fn given_by_other_built_ins() {
    check(&[
        ("$SIZE,abcdefghijkl;", "12", &[19; 2], "55"),
        ("$-,3,5;$+,1,2;$*,4,-5;", "-23-20", &[7, 7, 14, 22, 22, 22], "555555"),
        ("$Quot,-7,2;$Rem,-7,2;", "-41", &[11, 11, 21], "555"),
        ("$SEQ,a,a;$SEQ,a,b;", "10", &[9, 18], "55"),
        ("$IF,1,<a,b>;", "a,b", &[12; 3], "555"),
        ("$IF,0,a;x", "x", &[9], "1"),
        // In a body; a parameter that goes through IF is given by it.
        ("$DEF,k,<$SIZE,~1;$IF,1,~1;>;$k,ab;", "2ab", &[34; 3], "555"),
        ("$DEF,k,<x$+,~1,99;,>;$k,1;", "x100,", &[26; 5], "25552"),
        // DEF and UPDATE give no text.
        ("$DEF,k,abc;$UPDATE,k,b;x", "x", &[24], "1"),
    ]);
}

#[test]
fn one_body_in_another() {
    check(&[
        ("$DEF,i,<(~1)>;$DEF,k,<[$i,~1;]>;$k,ab;", "[(ab)]", &[38; 6], "223322"),
        // Three deep, and text behind it.
        (
            "$DEF,h,<1>;$DEF,i,<2$h;>;$DEF,k,<3$i;4>;$k;5",
            "32145",
            &[43, 43, 43, 43, 44],
            "22221",
        ),
        // A body that calls itself until IF chooses `z`.
        (
            "$DEF,z,;$DEF,f,<~1$$IF,$SEQ,~1,0;,z,1,f;,$-,~1,1;;>;$f,2;",
            "210",
            &[57; 3],
            "333",
        ),
    ]);
}

/// Bytes given into an argument are not written; the scan that fetches or gives them later has its own rule.
#[test]
fn collected_before() {
    check(&[
        (
            "$DEF,v,VW;$DEF,k,<~1>;$k,x$VAL,v;$SIZE,ab;y;",
            "xVW2y",
            &[44; 5],
            "33333",
        ),
        ("$DEF,v,VW;$DEF,k,a$VAL,v;;$k;", "aVW", &[29; 3], "222"),
        ("$DEF,v,VW;$DEF,k,a$VAL,v;;$VAL,k;", "aVW", &[33; 3], "444"),
        ("$DEF,v,VW;$IF,1,a$VAL,v;b;", "aVWb", &[26; 4], "5555"),
        ("$DEF,i,<q>;$DEF,k,<~1~1>;$k,$i;;", "qq", &[32; 2], "33"),
        // A parameter that a body hands on.
        ("$DEF,i,<~1>;$DEF,k,<$i,~1;>;$k,ab;", "ab", &[34; 2], "33"),
        // The commas of a body that are collected divide, and what they divide is fetched.
        ("$DEF,k,<1,2>;$DEF,j,<~1+~2>;$j,$k;;", "1+2", &[35; 3], "323"),
        // The name of a call and the name that VAL is given.
        ("$DEF,v,k;$DEF,k,z;$$VAL,v;;$VAL,$v;;", "zz", &[27, 36], "24"),
    ]);
}

/// A definition that hides a built-in is a macro.
#[test]
fn hidden_built_ins() {
    check(&[
        ("$DEF,VAL,<[~1]>;$VAL,k;", "[k]", &[23; 3], "232"),
        ("$SIZE,ab,$DEF,SIZE,<~1>;;$SIZE,ab;", "ab2", &[25, 25, 34], "335"),
        ("$DEF,k,v;$VAL,k,$DEF,VAL,<x~1>;;$VAL,k;", "xkv", &[32, 32, 39], "234"),
        // VAL gives the value of what hides IF.
        ("$DEF,IF,<a>;$VAL,IF;$IF;", "aa", &[20, 24], "42"),
    ]);
}

#[test]
fn under_other_signs() {
    let signs = Table::accepted(&lent(b"#|:%[]"));
    let table = signs.as_ref().expect("accepted");
    for (script, output, origins, rules) in [
        ("#DEF|k|[p%1]:#k|7:", "p7", &[18, 18][..], "23"),
        (
            "a|:%[$,;~]<>",
            "a|:%$,;~<>",
            &[1, 2, 3, 4, 6, 7, 8, 9, 11, 12],
            "1111111111",
        ),
        ("#DEF|k|[,|;]:#k:$k;", ",|;$k;", &[16, 16, 16, 17, 18, 19], "222111"),
        ("#DEF|k|ab:#VAL|k:#SIZE|,;:", "ab2", &[17, 17, 26], "445"),
    ] {
        let end = run_signs(&signs, script.as_bytes(), &Lent::PROGRAM);
        hold(&end, output, origins, rules, script);
        assert_eq!(substitute(script.as_bytes(), table, &BOUNDS), Some(end), "{script}");
    }
}

/// What is written before a fault has its numbers.
#[test]
fn up_to_a_fault() {
    check(&[
        ("a<b", "ab", &[1, 3], "11"),
        ("a$b", "a", &[1], "1"),
        ("a,$b>", "a,", &[1, 2], "11"),
        ("$SIZE,;$j;", "0", &[7], "5"),
        ("a$DEF,k,<b~1~2>;$k,c;", "abc", &[1, 21, 21], "123"),
        ("$DEF,k,<x;>;$k;", "x", &[15], "2"),
    ]);
}

/// Each script with what it is lent and its report, output, origins and rules; by scanning alone.
#[test]
fn cut_off() {
    let lent = |cells, output, allowance| Lent {
        cells,
        output,
        allowance,
        numbers: Some(Numbers {
            origins: output,
            rules: output + 1,
        }),
    };
    for (script, lent, report, output, origins, rules) in [
        (A, lent(17, 2, 18), "3 18 0 18 17 1", "", &[][..], ""),
        (A, lent(17, 2, 19), "3 18 1 19 17 1", "p", &[18], "2"),
        (A, lent(17, 2, 20), "3 18 2 20 17 1", "p7", &[18, 18], "23"),
        ("", lent(0, 0, 0), "3 0 0 0 0 0", "", &[], ""),
        ("ab$kk", lent(5, 9, 99), "4 5 2 5 5 0", "ab", &[1, 2], "11"),
        ("$DEF,k,<a$b>;$k;", lent(18, 9, 99), "4 16 1 18 15 1", "a", &[16], "2"),
        ("abc", lent(0, 2, 99), "5 3 2 3 0 0", "ab", &[1, 2], "11"),
        // A copy goes through whole or not at all.
        (
            "$DEF,k,<p~1>;$k,78;",
            lent(18, 2, 99),
            "5 19 1 21 18 1",
            "p",
            &[19],
            "2",
        ),
        ("x$DEF,k,abc;$VAL,k;", lent(19, 3, 99), "5 19 1 19 19 1", "x", &[1], "1"),
        ("x$-,3,5;", lent(10, 2, 99), "5 8 1 8 10 0", "x", &[1], "1"),
    ] {
        let end = run_signs(&STANDARD, script.as_bytes(), &lent);
        assert_eq!(line(&end), report, "{script}");
        hold(&end, output, origins, rules, script);
    }
}

#[test]
fn at_the_longest() {
    let all = Lent {
        cells: LIMIT,
        ..Lent::PROGRAM
    };
    // Each byte of the text at its place.
    let end = run_signs(&STANDARD, &vec![b'y'; LIMIT], &all);
    assert!(end.origins.iter().copied().eq(1..=65_536) && end.rules == [1; 65_536]);
    // All of them by the last byte.
    let script = format!("$DEF,k,<~1>;$k,{};", "y".repeat(LIMIT - 16));
    let end = run_signs(&STANDARD, script.as_bytes(), &all);
    assert_eq!(line(&end), "0 65536 65520 65539 65535 1");
    assert!(end.origins == [65_536; 65_520] && end.rules == [3; 65_520]);
    assert!(substitute(script.as_bytes(), &Table::STANDARD, &BOUNDS) == Some(end));
}

/// The line of a run with so many numbers lent.
fn report(signs: &[u8], script: &[u8], lent: Lent, [origins, rules]: [usize; 2]) -> String {
    let numbers = Some(Numbers { origins, rules });
    let end = run_signs(&Table::accepted(signs), script, &Lent { numbers, ..lent });
    assert_eq!(end.origins.len(), end.output.len());
    assert_eq!(end.rules.len(), end.output.len());
    line(&end)
}

#[test]
fn sorts_of_outcomes() {
    let refusals: Vec<u64> = (0..100).filter(|&it| sort(it) == Some(Sort::Refusal)).collect();
    assert_eq!(refusals, [2, 30, 31, 32, 35]);
}

/// "35 where either run of numbers is shorter than the output lent", whatever is written.
#[test]
fn numbers_too_short() {
    const REFUSED: &str = "35 0 0 0 0 0";
    for output in [0, 1, 2, 300, LIMIT - 1, LIMIT] {
        let lent = Lent {
            output,
            ..Lent::PROGRAM
        };
        let with = |numbers| report(Table::STANDARD.kinds(), b"", lent, numbers);
        let far = [LIMIT + 1, 70_000, usize::MAX];
        for enough in [output, output + 1, output + 300].into_iter().chain(far) {
            assert_eq!(with([enough, output]), "0 0 0 1 0 0");
            assert_eq!(with([output, enough]), "0 0 0 1 0 0");
            for few in [0, output / 2, output.saturating_sub(1)]
                .into_iter()
                .filter(|&it| it < output)
            {
                assert_eq!(with([enough, few]), REFUSED);
                assert_eq!(with([few, enough]), REFUSED);
                assert_eq!(with([few, few]), REFUSED);
            }
        }
    }
}

/// 2, then those of the signs, then 35, then those of the run.
#[test]
fn order_of_the_checks() {
    let (few, standard) = ([0, 0], Table::STANDARD.kinds());
    let long = vec![b'x'; LIMIT + 1];
    let lent = |cells, output| Lent {
        cells,
        output,
        allowance: 0,
        numbers: None,
    };
    for (signs, outcome) in [
        (vec![0; 255], 30),
        (with(b'!', 7), 30),
        (with(b'<', 0), 31),
        (with(b'A', 1), 31),
        (moved(5, b'A'), 32),
        (standard.to_vec(), 35),
    ] {
        let refused = format!("{outcome} 0 0 0 0 0");
        assert_eq!(report(&signs, &long, lent(0, 1), few), "2 0 0 0 0 0");
        assert_eq!(report(&signs, b"", lent(LIMIT + 1, 1), few), "2 0 0 0 0 0");
        assert_eq!(report(&signs, b"", lent(0, LIMIT + 1), few), "2 0 0 0 0 0");
        assert_eq!(report(&signs, b"", lent(0, LIMIT + 1), [LIMIT + 1; 2]), "2 0 0 0 0 0");
        assert_eq!(report(&signs, &long[1..], lent(LIMIT, LIMIT), few), refused);
        for script in [&b""[..], b"x", b"$", b";>", b"<"] {
            assert_eq!(report(&signs, script, lent(0, 1), few), refused);
        }
    }
    // With no output no number is asked for, and the run comes to its own end.
    assert_eq!(report(standard, b"", lent(0, 0), few), "3 0 0 0 0 0");
    let one = Lent {
        allowance: 1,
        ..lent(0, 0)
    };
    assert_eq!(report(standard, b"x", one, few), "5 1 0 1 0 0");
    assert_eq!(report(standard, b"$", one, few), "4 1 0 1 0 0");
}

/// Origins and rules as the trace of a run shows them.
#[derive(Default)]
struct Recount {
    read: u32,
    in_body: bool,
    written: usize,
    origins: Vec<u32>,
    rules: Vec<u32>,
}

impl Recount {
    fn follow(&mut self, row: &Row) {
        let byte = matches!(row.handled, Handled::Byte(_));
        self.read += u32::from(byte && !self.in_body);
        let rule = self.rule(row);
        for _ in self.written..row.output().len() {
            self.origins.push(self.read);
            self.rules.push(rule);
        }
        self.written = row.output().len();
        self.in_body = !row.bodies().is_empty();
    }

    /// The rule of what a scan wrote, if it did. A `;` that is copied applies no list.
    fn rule(&self, row: &Row) -> u32 {
        let list = row.applied().filter(|_| !row.in_quotes());
        match (row.handled, list) {
            (Handled::Parameter(_), _) => 3,
            (_, Some(list)) if list[0] == b"VAL" => 4,
            (_, Some(_)) => 5,
            (_, None) => 1 + u32::from(self.in_body),
        }
    }
}

/// The end by both halves, whose numbers are those of the trace and as the request says: as many as bytes, each origin
/// from 1 to what was read and none below the one before; the byte there is the one copied, or else a `;`.
fn traced_end(script: &str) -> End {
    let mut recount = Recount::default();
    traced(script, &Lent::PROGRAM, &mut |row| recount.follow(row));
    let end = end(script);
    assert_eq!(
        (&end.origins, &end.rules),
        (&recount.origins, &recount.rules),
        "{script}"
    );
    assert_eq!([end.origins.len(), end.rules.len()], [end.output.len(); 2], "{script}");
    assert!(end.origins.is_sorted(), "{script}");
    for (byte, (&origin, rule)) in end.output.iter().zip(end.origins.iter().zip(&end.rules)) {
        assert!((1..=end.report.read).contains(&u64::from(origin)), "{script}");
        let behind = script.as_bytes()[origin as usize - 1];
        assert_eq!(behind, if *rule == 1 { *byte } else { b';' }, "{script}");
    }
    end
}

/// How often each rule is among those of an end, and how often all five are.
fn count(counts: &mut [usize; 6], end: &End) {
    let has: Vec<bool> = (1..=5).map(|rule| end.rules.contains(&rule)).collect();
    for (count, has) in counts.iter_mut().zip(&has) {
        *count += usize::from(*has);
    }
    counts[5] += usize::from(!has.contains(&false));
}

#[test]
fn every_short_script() {
    let (mut tried, mut counts) = (0, [0; 6]);
    let pieces = ["a", ",", ";", "~1", "<", ">", "$k,b;", "$VAL,k;", "$SIZE,b;"];
    for script in scripts(&pieces, 5) {
        count(&mut counts, &traced_end(&format!("$DEF,k,<c,~1>;{script}")));
        tried += 1;
    }
    assert_eq!(tried, 66_430);
    assert!(counts.iter().all(|&count| count > 100), "{counts:?}");
}

#[test]
fn every_short_body() {
    let (mut tried, mut counts) = (0, [0; 6]);
    let pieces = ["x", ",", "~1", "<q,>", "$VAL,v;", "$+,~2,1;", "$i,~1", ";"];
    for body in scripts(&pieces, 5) {
        let script = format!("$DEF,v,VW;$DEF,i,<(~1~0)>;y$DEF,k,<{body}>;$k,ab,9;z");
        count(&mut counts, &traced_end(&script));
        tried += 1;
    }
    assert_eq!(tried, 37_449);
    assert!(counts.iter().all(|&count| count > 100), "{counts:?}");
}

/// With fewer scans or less output the numbers are the first of those with plenty, and with numbers lent all is as
/// without.
#[test]
fn numbers_of_a_run_cut_off_are_the_first() {
    let pieces = ["a", ",", "<b>", "$k,bc;", "$VAL,k;", "$SIZE,b;", "$j;", "$"];
    let mut cut_off = 0;
    for script in scripts(&pieces, 3) {
        let script = format!("$DEF,k,<(~1$VAL,k;)>;{script}");
        let whole = end(&script);
        let ends = (0..=whole.report.scans).map(|allowance| (LIMIT, allowance));
        let ends = ends.chain((0..=whole.output.len()).map(|output| (output, u64::MAX)));
        for (output, allowance) in ends {
            let numbers = None;
            let lent = Lent {
                cells: 99,
                output,
                allowance,
                numbers,
            };
            let end = run_signs(&STANDARD, script.as_bytes(), &lent);
            assert!(whole.origins.starts_with(&end.origins), "{script} {lent:?}");
            assert!(whole.rules.starts_with(&end.rules), "{script} {lent:?}");
            let numbers = Some(Numbers {
                origins: output,
                rules: LIMIT,
            });
            assert_eq!(run_signs(&STANDARD, script.as_bytes(), &Lent { numbers, ..lent }), end);
            cut_off += usize::from(end.report.is(Sort::Want));
        }
    }
    assert!(cut_off > 10_000, "{cut_off}");
}
