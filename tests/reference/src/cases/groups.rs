//! Document 02's request Thirteen: "which definition a name finds" where many names stand in one group, and the price of
//! a definition; against both halves, with reports worked out by hand. Nothing here keeps an index: what is found is held
//! to a plain list of definitions.
use super::nameless::scripts;
use super::own_signs::lent;
use super::{check, check_allowance, check_lent, check_outcomes, end, is, line, standing, text, A, BOUNDS};
use crate::ends::End;
use crate::scanning::{run, run_signs, Lent};
use crate::signs::{Table, BUILT_INS, LIMIT};
use crate::substitution::{substitute, Bounds};
use std::collections::BTreeMap;

/// "by the sum of the name's bytes modulo 64"; here it only chooses names.
fn group(name: &[u8]) -> usize {
    name.iter().map(|&byte| usize::from(byte)).sum::<usize>() % 64
}

#[test]
fn table_of_request_thirteen() {
    check(&[
        (A, "0 18 2 22 17 1", "p7"),
        (
            "$DEF,ab,1;$DEF,ba,2;$DEF,ab,3;$ab;$ba;$k,$DEF,ba,4;$DEF,k,<$ba;$DEF,ab,5;>;;$ab;$ba;",
            "0 84 5 110 72 4",
            "32452",
        ),
        (
            "$DEF,m,<$DEF,x,1;$DEF,y,2;$DEF,x,3;>;$m,$DEF,z,9;$DEF,x,8;;$x;$y;$z;",
            "15 68 2 100 80 4",
            "32",
        ),
    ]);
    check_lent(&[(A, 16, 65_536, "4 18 0 18 16 1"), (A, 17, 2, "0 18 2 22 17 1")]);
}

#[test]
fn names_of_one_group() {
    for names in [
        &["ab", "ba", "C", "\u{3}", "UPDATE"][..],
        &["DEF", "IF", "FED", "O", "FI"],
        &["Quot", "SEQ", "LOCK", ")", "i", "QES"],
        &["+", "k"],
        &["-", "m"],
        &["*", "j"],
        &["VAL", "c", "#"],
        &["Rem", "d"],
        &["SIZE", "{"],
    ] {
        assert!(
            names
                .iter()
                .all(|name| group(name.as_bytes()) == group(names[0].as_bytes())),
            "{names:?}"
        );
    }
}

/// "A definition is charged 5 in place of 4": so many definitions of seven cells stand, and DEF's list has twelve.
#[test]
fn price_of_many() {
    for count in 1..300 {
        let script = "$DEF,k,v;".repeat(count);
        let (read, most) = (9 * count, 7 * (count - 1) + 12);
        check(&[(&script, &format!("0 {read} 0 {} {most} {count}", read + 1), "")]);
        let (short, before) = (most - 1, count - 1);
        check_lent(&[
            (&script, most, 0, &format!("0 {read} 0 {} {most} {count}", read + 1)),
            (&script, short, 0, &format!("4 {read} 0 {read} {short} {before}")),
        ]);
    }
}

/// Names and values of every length count beside the 5, with UPDATE and LOCK as without.
#[test]
fn price_by_lengths() {
    for name in 1..20 {
        for value in 0..20 {
            let (name_bytes, value_bytes) = ("n".repeat(name), "v".repeat(value));
            let call = format!("${name_bytes};");
            let script = format!("$DEF,{name_bytes},{value_bytes};$UPDATE,{name_bytes},;$LOCK,{name_bytes};{call}");
            // UPDATE's list has 4, its name, two commas, the name and `;`; DEF's the value too.
            let definition = name + value + 5;
            let most = (definition + 13 + name).max(10 + name + value);
            let end = end(&script);
            assert_eq!(end.report.most as usize, most, "{script}");
            let outcome = |cells| run(script.as_bytes(), &Lent { cells, ..Lent::PROGRAM }).report.outcome;
            assert_eq!((outcome(most), outcome(most - 1)), (0, 4), "{script}");
        }
    }
}

/// Up to the most cells that may be lent: ten definitions of seven cells by each call of m, which has 96 cells.
#[test]
fn price_at_the_most_cells() {
    let body = "$DEF,k,v;".repeat(10);
    let head = format!("$DEF,m,<{body}>;$DEF,p,xyz;");
    // m has 1 + 90 + 5 and p 1 + 3 + 5; a call of m has 6 with its `;`, and in it DEF's list 12.
    let calls = |count: usize| format!("{head}{}", "$m;".repeat(count));
    let most = |count: usize| 96 + 9 + 7 * (10 * count - 1) + 6 + 12;
    let all = Lent {
        cells: LIMIT,
        ..Lent::PROGRAM
    };
    let report = |script: &str, lent: &Lent| run(script.as_bytes(), lent).report;
    let last = report(&calls(934), &all);
    assert_eq!((last.outcome, last.most as usize, last.live), (0, most(934), 9_342));
    let exact = Lent {
        cells: most(934),
        ..all
    };
    assert_eq!(report(&calls(934), &exact), last);
    let short = Lent {
        cells: most(934) - 1,
        ..all
    };
    let refused = report(&calls(934), &short);
    assert_eq!((refused.outcome, refused.live, refused.read), (4, 9_341, last.read));
    // Six more of the next ten.
    let over = report(&calls(935), &all);
    assert!(most(935) > LIMIT);
    assert_eq!((over.outcome, over.most as usize, over.live), (4, LIMIT, 9_347));
}

/// Freed cells serve again at the price that was paid for them.
#[test]
fn price_given_back() {
    check(&[
        // In IF's list, which has 9: 7 for a, and 12 for the list of the second DEF. Then both go.
        ("$IF,0,$DEF,a,1;$DEF,b,2;;$DEF,c,3;", "0 34 0 35 28 1", ""),
        // In a body's list: 6 for e, 6 for `$e,`, 7 for a and 12.
        ("$DEF,e,;$e,$DEF,a,1;$DEF,b,2;;$e,$DEF,c,3;;", "0 43 0 46 31 1", ""),
        // In DEF's own list: 10 for `$DEF,t,`, 7 for a and 12.
        ("$DEF,t,$DEF,a,1;$DEF,b,2;3;", "0 27 0 28 29 1", ""),
    ]);
    check_lent(&[
        ("$IF,0,$DEF,a,1;$DEF,b,2;;$DEF,c,3;", 27, 0, "4 24 0 24 27 1"),
        ("$IF,0,$DEF,a,1;$DEF,b,2;;$DEF,c,3;", 28, 0, "0 34 0 35 28 1"),
        ("$DEF,e,;$e,$DEF,a,1;$DEF,b,2;;$e,$DEF,c,3;;", 30, 0, "4 29 0 29 30 2"),
        ("$DEF,t,$DEF,a,1;$DEF,b,2;3;", 28, 0, "4 25 0 25 28 1"),
    ]);
    check_allowance(&[("$DEF,t,$DEF,a,1;$DEF,b,2;3;", 27, "3 27 0 27 29 1")]);
}

#[test]
fn found_behind_others_of_the_group() {
    check(&[
        // `ab` has 8 and so has `ba`; 7 for the call of a name of two bytes with its `;`, 14 for DEF's list.
        ("$DEF,ab,1;$DEF,ba,2;$ab;$ba;", "0 28 2 33 23 2", "12"),
        ("$DEF,ab,1;$DEF,ba,2;$C;", "15 23 0 23 22 2", ""),
    ]);
    check_outcomes(&[
        ("$DEF,ab,1;$DEF,ba,2;$DEF,C,3;$ab;$ba;$C;$VAL,ab;", 0, "1231"),
        ("$DEF,ab,1;$DEF,ba,2;$DEF,ab,3;$DEF,ba,4;$ab;$ba;", 0, "34"),
        ("$DEF,ab,1;$DEF,ba,2;$UPDATE,ab,3;$ab;$ba;", 0, "32"),
        ("$DEF,ab,1;$DEF,ba,2;$LOCK,ab;$UPDATE,ba,3;$ba;$UPDATE,ab,4;", 36, "3"),
        ("$DEF,ab,1;$DEF,ba,2;$LOCK,ab;$DEF,ab,5;$UPDATE,ab,6;$ab;", 0, "6"),
        ("$DEF,ab,1;$DEF,ba,<$UPDATE,ab,2;>;$ba;$ab;", 0, "2"),
        ("$DEF,ab,1;$DEF,ba,<$UPDATE,ba,2;>;$ba;", 20, ""),
        ("$DEF,ab,1;$DEF,ba,2;$VAL,C;", 15, ""),
        ("$DEF,ab,1;$DEF,ba,2;$LOCK,aab;", 15, ""),
        ("$DEF,ab,1;$DEF,ba,2;$UPDATE,a,;", 15, ""),
        // No name is found by its group or its beginning alone.
        ("$DEF,a,1;$DEF,ab,2;$DEF,abc,3;$ab;$a;$abc;", 0, "213"),
        ("$DEF,abc,1;$ab;", 15, ""),
        ("$DEF,ab,1;$abc;", 15, ""),
        ("$DEF,ab,1;$;", 15, ""),
    ]);
}

/// Where definitions of the group go, with the list of each built-in and of a body.
#[test]
fn found_again() {
    for list in [
        "$IF,0,@;",
        "$SIZE,@;",
        "$SEQ,@,;",
        "$+,1,2,@;",
        "$Quot,8,2@;",
        "$DEF,x,@;",
        "$VAL,ab@;",
        "$VAL,ab,@;",
        "$UPDATE,ab,@1;",
        "$UPDATE,ba@,;",
        "$LOCK,@ba;",
        "$LOCK,ab,@;",
        "$e,@;",
        "$f,@;",
        "$e,$e,@;;",
        "$IF,0,$e,@;@;",
    ] {
        let list = list.replace('@', "$DEF,ba,5;$DEF,ab,6;$DEF,C,7;");
        let script = format!("$DEF,e,;$DEF,f,<$DEF,c,8;>;$DEF,ab,1;$DEF,ba,2;$IF,0,{list};$UPDATE,C,x;");
        assert_eq!(end(&script).report.outcome, 15, "{script}");
        let script = format!("$DEF,e,;$DEF,f,<$DEF,c,8;>;$DEF,ab,1;$DEF,ba,2;$IF,0,{list};|$ab;$ba;$UPDATE,ba,3;$ba;");
        let end = end(&script);
        let shown = text(&end.output).split_once('|').expect("a bar").1;
        assert_eq!((end.report.outcome, shown), (0, "123"), "{script}");
    }
}

/// "Definitions made in the body stay", also those of the group whose older ones go from beneath them.
#[test]
fn found_after_the_list_beneath_went() {
    check_outcomes(&[
        ("$DEF,m,<$DEF,ab,1;>;$m,$DEF,ba,2;;$ab;", 0, "1"),
        ("$DEF,m,<$DEF,ab,1;>;$m,$DEF,ba,2;;$ba;", 15, ""),
        ("$DEF,C,0;$DEF,m,<$DEF,ab,1;>;$m,$DEF,ba,2;;$C;$ab;", 0, "01"),
        ("$DEF,ba,0;$DEF,m,<$DEF,ab,1;>;$m,$DEF,ba,2;;$ba;$ab;", 0, "01"),
        (
            "$DEF,m,<$DEF,ab,1;$DEF,ba,3;>;$m,$DEF,ba,2;$DEF,ab,4;;$ba;$ab;",
            0,
            "31",
        ),
        (
            "$DEF,m,<$DEF,ab,1;$UPDATE,ba,3;>;$DEF,ba,0;$m,$DEF,ba,2;;$ba;$ab;",
            0,
            "01",
        ),
        (
            "$DEF,m,<$DEF,ab,1;$UPDATE,ba,3;>;$DEF,ba,0;$m,$DEF,C,2;;$ba;$ab;",
            0,
            "31",
        ),
        (
            "$DEF,m,<$DEF,ab,1;>;$m,$DEF,ba,2;;$LOCK,ab;$DEF,ba,3;$UPDATE,ba,4;$ba;$UPDATE,ab,5;",
            36,
            "4",
        ),
        // One body after another, and one within another, each with a list that goes.
        (
            "$DEF,m,<$DEF,ab,~1;>;$m,1$DEF,ba,2;;$m,3$DEF,C,4;;$ab;$m,5$DEF,ab,6;;$ab;",
            0,
            "35",
        ),
        (
            "$DEF,m,<$DEF,ab,1;>;$DEF,n,<$DEF,ba,2;$m,$DEF,C,3;;$DEF,C,4;>;$n,$DEF,ab,5;$DEF,C,6;;$ab;$ba;$C;",
            0,
            "124",
        ),
        (
            "$DEF,m,<$DEF,ab,1;>;$DEF,n,<$m,$DEF,ab,3;;$ab;>;$DEF,o,<$DEF,ba,7;$n,$DEF,ba,5;;$ba;>;$o,$DEF,ab,8;;$ab;$ba;",
            0,
            "1717",
        ),
    ]);
    assert_eq!(
        standing("$DEF,C,0;$m,$DEF,ab,1;$DEF,m,<$DEF,ba,2;$DEF,C,3;$DEF,ab,4;>;;"),
        [is("ab", "4", 1), is("C", "3", 1), is("ba", "2", 1), is("C", "0", 1)]
    );
}

/// A call of a built-in that shows that it is the built-in, and what it gives.
fn shown_by(built_in: &str) -> (String, &'static str) {
    match built_in {
        "DEF" => ("$DEF,q,5;$q;".into(), "5"),
        "VAL" => ("$VAL,v;".into(), "9"),
        "UPDATE" => ("$UPDATE,v,8;$v;".into(), "8"),
        "LOCK" => ("$LOCK,v;$v;".into(), "9"),
        "SEQ" => ("$SEQ,a,a;".into(), "1"),
        "SIZE" => ("$SIZE,abc;".into(), "3"),
        "IF" => ("$IF,1,a;".into(), "a"),
        "+" => ("$+,7,2;".into(), "9"),
        "-" => ("$-,7,2;".into(), "5"),
        "*" => ("$*,7,2;".into(), "14"),
        "Quot" => ("$Quot,7,2;".into(), "3"),
        _ => ("$Rem,7,2;".into(), "1"),
    }
}

/// Every name of one byte in a built-in's group, and its letters turned round.
fn of_its_group(built_in: &str) -> Vec<Vec<u8>> {
    let one = (0..=255u8)
        .filter(|&byte| !b"<>".contains(&byte))
        .map(|byte| vec![byte]);
    let turned: Vec<u8> = built_in.bytes().rev().collect();
    let near = one.filter(|name| group(name) == group(built_in.as_bytes()));
    let longer = [b"@", built_in.as_bytes()].concat();
    near.chain([turned, longer])
        .filter(|name| name != built_in.as_bytes())
        .collect()
}

/// A built-in is found while definitions of its group stand, is hidden by one of its name, and is found again.
#[test]
fn built_ins_of_the_group() {
    for (built_in, _) in BUILT_INS {
        let built_in = text(built_in);
        let (call, shown) = shown_by(built_in);
        let mut script = b"$DEF,v,9;".to_vec();
        let names = of_its_group(built_in);
        assert!(names.len() >= 3, "{built_in}");
        for name in &names {
            assert_eq!(group(name), group(built_in.as_bytes()));
            script.extend([b"$DEF,<", name.as_slice(), b">,6;"].concat());
        }
        let hidden = format!("{call}|$IF,1,${built_in},$DEF,{built_in},<(~0)>;;;|{call}");
        script.extend(hidden.bytes());
        let both = both_halves(&script);
        assert_eq!(
            (both.report.outcome, text(&both.output)),
            (0, format!("{shown}|({built_in})|{shown}").as_str()),
            "{built_in}"
        );
        // 19 for the built-in, and none of those of its group is found for it.
        let refused = [&script[..], format!("$VAL,{built_in};").as_bytes()].concat();
        assert_eq!(both_halves(&refused).report.outcome, 19, "{built_in}");
    }
}

/// The end, which both halves give, of a script of any bytes.
fn both_halves(script: &[u8]) -> End {
    let lent = Lent {
        cells: LIMIT,
        ..Lent::PROGRAM
    };
    let scanned = run(script, &lent);
    let bounds = Bounds {
        scans: 10_000_000,
        ..BOUNDS
    };
    let substituted = substitute(script, &Table::STANDARD, &bounds);
    assert_eq!(substituted.as_ref(), Some(&scanned), "{}", script.escape_ascii());
    scanned
}

/// Each of these names defined with its number, in this order, and then each called, in another order.
fn defined_and_called(names: &[Vec<u8>]) -> End {
    let mut script = Vec::new();
    for (number, name) in names.iter().enumerate() {
        script.extend([b"$DEF,<", name.as_slice(), format!(">,{number};").as_bytes()].concat());
    }
    let mut output = String::new();
    for place in 0..names.len() {
        let number = place * 7 % names.len();
        script.extend([b"$<", names[number].as_slice(), b">; "].concat());
        output.push_str(&format!("{number} "));
    }
    let end = both_halves(&script);
    assert_eq!((end.report.outcome, text(&end.output)), (0, output.as_str()));
    assert_eq!(end.report.live as usize, names.len());
    end
}

/// One byte each, four names to a group and in all 64 groups.
#[test]
fn every_name_of_one_byte_at_once() {
    let names: Vec<Vec<u8>> = (0..=255)
        .filter(|byte| !b"<>".contains(byte))
        .map(|byte| vec![byte])
        .collect();
    assert_eq!(names.len(), 254);
    defined_and_called(&names);
    let mut groups: Vec<usize> = names.iter().map(|name| group(name)).collect();
    groups.sort_unstable();
    groups.dedup();
    assert_eq!(groups.len(), 64);
}

/// Hundreds of names in one group: of two bytes, of three, with sums that are the same or differ by multiples of 64.
#[test]
fn hundreds_of_names_in_one_group() {
    let plain = |byte: &u8| !b"<>".contains(byte);
    let pairs = (0..=255u8)
        .filter(plain)
        .flat_map(|first| (0..=255u8).filter(plain).map(move |second| vec![first, second]));
    let names: Vec<Vec<u8>> = pairs.filter(|name| group(name) == 3).step_by(2).collect();
    assert!(names.len() > 500, "{}", names.len());
    let names = &names[..names.len() - names.len() % 7 - 1];
    // 5, two bytes of name, and the digits of the number; and 7 for a call of one with its `;`.
    let standing: usize = (0..names.len()).map(|number| 7 + number.to_string().len()).sum();
    assert_eq!(defined_and_called(names).report.most as usize, standing + 7);
    let anagrams: Vec<Vec<u8>> = ["abc", "acb", "bac", "bca", "cab", "cba"]
        .map(|name| name.as_bytes().to_vec())
        .to_vec();
    defined_and_called(&anagrams);
}

/// Names up to thousands of bytes, whose sums go far beyond 16 bits; they differ in one place, or in length by 64.
#[test]
fn long_names() {
    for length in [63, 64, 255, 256, 257, 300, 1_000] {
        let high = vec![255u8; length];
        let mut other = high.clone();
        other[length / 2] = 255 - 64;
        let mut turned = high.clone();
        (turned[0], turned[length - 1]) = (254, 255);
        let mut back = high.clone();
        (back[0], back[length - 1]) = (255, 254);
        let mut more = high.clone();
        more.extend([128; 64]);
        assert_eq!(group(&turned), group(&back));
        assert_eq!(group(&high), group(&other));
        defined_and_called(&[high, other, turned, back, more]);
    }
}

#[test]
fn under_other_signs() {
    let table = Table::accepted(&lent(b"#|:%[]"));
    for (script, report, output) in [
        (&b"#DEF|ab|1:#DEF|ba|2:#ab:#ba:"[..], "0 28 2 33 23 2", "12"),
        (b"#DEF|$,|1:#DEF|,$|2:#$,:#,$:", "0 28 2 33 23 2", "12"),
        (b"#DEF|ab|1:#DEF|ba|2:#C:", "15 23 0 23 22 2", ""),
    ] {
        let end = run_signs(&table, script, &Lent::PROGRAM);
        assert_eq!((line(&end).as_str(), text(&end.output)), (report, output));
        let substituted = substitute(script, table.as_ref().expect("accepted"), &BOUNDS);
        assert_eq!(substituted, Some(end), "{}", text(script));
    }
}

/// What a piece of a script does.
#[derive(Clone, Debug)]
enum Does {
    Define(&'static str),
    Call(&'static str),
    Update(&'static str),
    Lock(&'static str),
    /// A list of IF, which gives what it collects.
    List(Vec<Does>),
    /// A call of a macro that is defined just before, with such a list and such a body.
    Body(Vec<Does>, Vec<Does>),
}

/// A definition of the plain list: its name, its value and its mark.
struct Listed {
    name: &'static str,
    value: String,
    locked: bool,
}

/// The script of some pieces, with what it comes to by a plain list of definitions, newest last. Every value is another,
/// so that the output shows which was found.
#[derive(Default)]
struct Described {
    listed: Vec<Listed>,
    values: usize,
    macros: usize,
    output: String,
}

impl Described {
    fn value(&mut self) -> String {
        self.values += 1;
        format!("{:02}", self.values)
    }

    /// "The newest definition with that name", by reading all.
    fn newest(&mut self, name: &str) -> Result<&mut Listed, u64> {
        self.listed.iter_mut().rev().find(|it| it.name == name).ok_or(15)
    }

    /// Writes the pieces and does them, to the first that ends the run; the rest is written all the same.
    fn all(&mut self, pieces: &[Does], script: &mut String) -> Result<(), u64> {
        let mut done = Ok(());
        for piece in pieces {
            let next = self.one(piece, script, done.is_ok());
            done = done.and(next);
        }
        done
    }

    fn one(&mut self, piece: &Does, script: &mut String, does: bool) -> Result<(), u64> {
        match piece {
            Does::Define(name) => {
                let value = self.value();
                script.push_str(&format!("$DEF,{name},{value};"));
                self.does(does, |it| it.define(name, value))
            }
            Does::Call(name) => {
                script.push_str(&format!("${name};"));
                self.does(does, |it| it.call(name))
            }
            Does::Update(name) => {
                let new = self.value();
                script.push_str(&format!("$UPDATE,{name},{new};"));
                self.does(does, |it| it.update(name, new))
            }
            Does::Lock(name) => {
                script.push_str(&format!("$LOCK,{name};"));
                self.does(does, |it| it.lock(name))
            }
            Does::List(list) => self.list(list, script, does),
            Does::Body(list, body) => self.body(list, body, script, does),
        }
    }

    fn define(&mut self, name: &'static str, value: String) -> Result<(), u64> {
        let locked = false;
        self.listed.push(Listed { name, value, locked });
        Ok(())
    }

    fn call(&mut self, name: &str) -> Result<(), u64> {
        let value = self.newest(name)?.value.clone();
        self.output.push_str(&value);
        Ok(())
    }

    fn update(&mut self, name: &str, new: String) -> Result<(), u64> {
        match self.newest(name)? {
            listed if listed.locked => Err(36),
            listed => {
                listed.value = new;
                Ok(())
            }
        }
    }

    fn lock(&mut self, name: &str) -> Result<(), u64> {
        self.newest(name)?.locked = true;
        Ok(())
    }

    fn does(&mut self, does: bool, act: impl FnOnce(&mut Described) -> Result<(), u64>) -> Result<(), u64> {
        if does {
            act(self)
        } else {
            Ok(())
        }
    }

    fn list(&mut self, list: &[Does], script: &mut String, does: bool) -> Result<(), u64> {
        let before = self.listed.len();
        script.push_str("$IF,1,");
        let collected = self.only(list, script, does);
        script.push(';');
        let collected = collected?;
        if does {
            self.listed.truncate(before);
            self.output.push_str(&collected);
        }
        Ok(())
    }

    /// What the pieces give, which is not written yet.
    fn only(&mut self, list: &[Does], script: &mut String, does: bool) -> Result<String, u64> {
        let written = std::mem::take(&mut self.output);
        let done = if does {
            self.all(list, script)
        } else {
            list.iter().try_for_each(|piece| self.one(piece, script, false))
        };
        let collected = std::mem::replace(&mut self.output, written);
        done.map(|()| collected)
    }

    /// The macro's name is of another group than the others, and of another at each call.
    fn body(&mut self, list: &[Does], body: &[Does], script: &mut String, does: bool) -> Result<(), u64> {
        self.macros += 1;
        let name = ["g", "h", "l"][self.macros % 3];
        self.does(does, |it| it.define(name, String::new()))?;
        let before = self.listed.len();
        let (mut in_list, mut in_body) = (String::new(), String::new());
        let mut done = self.only(list, &mut in_list, does).map(|_| ());
        let collected = self.listed.len();
        let goes_on = does && done.is_ok();
        for piece in body {
            let next = self.one(piece, &mut in_body, goes_on && done.is_ok());
            done = done.and(next);
        }
        script.push_str(&format!("$DEF,{name},<{in_body}>;${name},{in_list};"));
        if does && done.is_ok() {
            self.listed.drain(before..collected);
        }
        done
    }
}

/// Runs pieces by both halves and by the plain list, and gives the outcome.
fn held_to_the_list(pieces: &[Does]) -> u64 {
    let (mut described, mut script) = (Described::default(), String::new());
    let outcome = described.all(pieces, &mut script).err().unwrap_or(0);
    let end = end(&script);
    assert_eq!(end.report.outcome, outcome, "{script}");
    assert_eq!(text(&end.output), described.output, "{script}");
    let listed = described.listed.iter().rev();
    let stand = end.standing.iter();
    assert!(
        listed.len() == stand.len() && listed.zip(stand).all(|(listed, it)| listed.is(it)),
        "{script}"
    );
    outcome
}

impl Listed {
    /// The values of macros are not described.
    fn is(&self, standing: &crate::ends::Standing) -> bool {
        let of_macro = ["g", "h", "l"].contains(&self.name);
        let value = of_macro || text(&standing.value) == self.value;
        text(&standing.name) == self.name && value && standing.locked == self.locked
    }
}

/// The pieces that a word spells, and the rest of it behind the `)` that ends a list.
fn spelt(word: &str, letters: &[Does]) -> Vec<Does> {
    let mut open = vec![Vec::new()];
    for letter in word.bytes() {
        match letter {
            b'(' => open.push(Vec::new()),
            b')' if open.len() > 1 => {
                let list = open.pop().unwrap_or_default();
                open.last_mut().expect("a list").push(Does::List(list));
            }
            b')' => {}
            _ => open
                .last_mut()
                .expect("a list")
                .push(letters[usize::from(letter - b'a')].clone()),
        }
    }
    while open.len() > 1 {
        let list = open.pop().unwrap_or_default();
        open.last_mut().expect("a list").push(Does::List(list));
    }
    open.pop().unwrap_or_default()
}

fn counted(outcomes: impl Iterator<Item = u64>) -> BTreeMap<u64, usize> {
    let mut counts = BTreeMap::new();
    outcomes.for_each(|outcome| *counts.entry(outcome).or_default() += 1);
    counts
}

/// Two names of one group, defined, called and updated, in lists that go.
#[test]
fn every_short_script() {
    let letters = [
        Does::Define("ab"),
        Does::Define("ba"),
        Does::Call("ab"),
        Does::Call("ba"),
        Does::Update("ab"),
    ];
    let words = scripts(&["a", "b", "c", "d", "e", "(", ")"], 6);
    assert_eq!(words.len(), 137_257);
    let counts = counted(words.iter().map(|word| held_to_the_list(&spelt(word, &letters))));
    assert!(counts[&0] > 20_000 && counts[&15] > 20_000, "{counts:?}");
}

/// Three names of one group with a built-in of the same, UPDATE, one of another group, and LOCK.
#[test]
fn every_short_script_with_locks() {
    let letters = [
        Does::Define("ab"),
        Does::Define("C"),
        Does::Define("c"),
        Does::Lock("ab"),
        Does::Update("C"),
        Does::Update("ab"),
    ];
    let words = scripts(&["a", "b", "c", "d", "e", "f", "("], 5);
    let counts = counted(words.iter().map(|word| held_to_the_list(&spelt(word, &letters))));
    assert!(counts[&36] > 200 && counts[&0] > 2_000, "{counts:?}");
}

/// Every way to choose one word of each.
fn choices(of: &[&[String]]) -> Vec<Vec<String>> {
    let with = |chosen: Vec<Vec<String>>, words: &&[String]| {
        let more = |chosen: &Vec<String>| {
            words
                .iter()
                .map(|word| [&chosen[..], &[word.clone()]].concat())
                .collect()
        };
        chosen.iter().flat_map::<Vec<Vec<String>>, _>(more).collect()
    };
    of.iter().fold(vec![Vec::new()], with)
}

/// The list of a body goes from beneath what the body made.
#[test]
fn every_short_list_and_body() {
    let makes = [Does::Define("ab"), Does::Define("ba"), Does::Define("c")];
    let uses = [
        Does::Call("ab"),
        Does::Call("ba"),
        Does::Update("ab"),
        Does::Lock("ba"),
        Does::Define("ab"),
    ];
    let made = scripts(&["a", "b", "c"], 3);
    let after = scripts(&["a", "b", "c", "d", "e"], 2);
    let words = choices(&[&made, &made, &after]);
    assert_eq!(words.len(), 49_600);
    let counts = counted(words.iter().map(|words| {
        let [list, body] = [0, 1].map(|place| spelt(&words[place], &makes));
        let mut pieces = vec![Does::Define("ba"), Does::Body(list, body)];
        pieces.extend(spelt(&words[2], &uses));
        held_to_the_list(&pieces)
    }));
    assert!(counts[&0] > 30_000 && counts[&15] > 1_000, "{counts:?}");
}

/// A body within a body, each with a list that goes, and definitions before and behind the inner one.
#[test]
fn every_short_body_in_a_body() {
    let makes = [Does::Define("ab"), Does::Define("ba")];
    let uses = [Does::Call("ab"), Does::Call("ba"), Does::Update("ba"), Does::Lock("ab")];
    let [one, two] = [1, 2].map(|most| scripts(&["a", "b"], most));
    let after = scripts(&["a", "b", "c", "d"], 2);
    let words = choices(&[&two, &one, &one, &two, &one, &after]);
    assert_eq!(words.len(), 27_783);
    let counts = counted(words.iter().map(|words| {
        let [outer, mut within, list, body, behind] = [0, 1, 2, 3, 4].map(|place| spelt(&words[place], &makes));
        within.push(Does::Body(list, body));
        within.extend(behind);
        let mut pieces = vec![Does::Body(outer, within)];
        pieces.extend(spelt(&words[5], &uses));
        held_to_the_list(&pieces)
    }));
    assert!(counts[&0] > 10_000 && counts[&15] > 1_000, "{counts:?}");
}

/// Bodies one after another, each of which makes definitions and has a list that goes; in a list too, so that all go,
/// after which an older one is found.
#[test]
fn every_two_bodies() {
    let makes = [Does::Define("ab"), Does::Define("C")];
    let uses = [Does::Call("ab"), Does::Call("C"), Does::Update("ab"), Does::Lock("C")];
    let [one, two] = [1, 2].map(|most| scripts(&["a", "b"], most));
    let after = scripts(&["a", "b", "c", "d"], 1);
    let words = choices(&[&one, &two, &one, &two, &after]);
    assert_eq!(words.len(), 2_205);
    let counts = counted(words.iter().flat_map(|words| {
        let [list, body, other, second] = [0, 1, 2, 3].map(|place| spelt(&words[place], &makes));
        let bodies = vec![Does::Body(list, body), Does::Body(other, second)];
        let after = spelt(&words[4], &uses);
        let within = [&[Does::Define("C"), Does::List(bodies.clone())], &after[..]].concat();
        [[&bodies[..], &after].concat(), within].map(|pieces| held_to_the_list(&pieces))
    }));
    assert!(counts[&0] > 1_000 && counts[&15] > 500, "{counts:?}");
}
