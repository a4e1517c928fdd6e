//! Document 02's request Seven: Quot and Rem against both halves, against the request's own sentence for wide sets of
//! pairs, and with reports worked out by hand.
use super::{charges, check, check_lent, check_outcomes, end, standing, text, BOUNDS};
use crate::arithmetic::{reckon, Operation};
use crate::scanning::{run_signs, Lent};
use crate::signs::Table;
use crate::substitution::substitute;
use std::collections::BTreeSet;

const LOWEST: i64 = -2_147_483_648;
const HIGHEST: i64 = 2_147_483_647;

/// The largest of the small numbers, of which all pairs are tried.
const SMALL: i64 = 40;

#[test]
fn table_of_request_seven() {
    check(&[
        ("$Rem,-1,8;", "0 10 1 11 13 0", "7"),
        ("$Quot,-7,2;", "0 11 2 12 14 0", "-4"),
        ("$Rem,-7,2;", "0 10 1 11 13 0", "1"),
        ("$Quot,-7,-2;", "0 12 1 13 15 0", "4"),
        (
            "$Quot,-7,2; $Rem,-7,2; $Quot,-7,-2; $Rem,-7,-2; $Rem,-1,8; $Quot,7,-2; $Rem,7,-2;",
            "0 81 15 82 15 0",
            "-4 1 4 1 7 -3 1",
        ),
        (
            "$Rem,-1,-2147483648; $Quot,-1,-2147483648; $Rem,-2147483648,-1; $Rem,-2147483648,2147483647;",
            "0 92 25 93 31 0",
            "2147483647 1 0 2147483646",
        ),
        ("$Quot,-2147483648,-1;", "24 21 0 21 24 0", ""),
        ("$Rem,-1,0;", "23 10 0 10 13 0", ""),
    ]);
}

/// The number that the arithmetic gives, or the outcome that refuses. Its decimal is the shortest.
fn reckoned(operation: Operation, left: i64, right: i64) -> Result<i64, u64> {
    let (left, right) = (left.to_string(), right.to_string());
    let given = reckon(operation, left.as_bytes(), right.as_bytes())?;
    let number: i64 = text(&given).parse().expect("a number");
    assert_eq!(number.to_string(), text(&given), "{operation:?} {left} {right}");
    Ok(number)
}

fn quotient(left: i64, right: i64) -> Result<i64, u64> {
    reckoned(Operation::Quot, left, right)
}

fn remainder(left: i64, right: i64) -> Result<i64, u64> {
    reckoned(Operation::Rem, left, right)
}

/// "a remainder from 0 up to one less than the divisor's size", and "dividend = divisor × quotient + remainder".
fn fits(dividend: i64, divisor: i64, quotient: i64, remainder: i64) -> bool {
    (0..divisor.abs()).contains(&remainder) && dividend == divisor * quotient + remainder
}

/// Every pair of these numbers whose second is not 0.
fn pairs(numbers: &[i64]) -> impl Iterator<Item = (i64, i64)> + '_ {
    let divisors = numbers.iter().filter(|&&divisor| divisor != 0);
    divisors.flat_map(|&divisor| numbers.iter().map(move |&dividend| (dividend, divisor)))
}

/// Every pair of small numbers, of either sign.
fn small_pairs() -> Vec<(i64, i64)> {
    let small: Vec<i64> = (-SMALL..=SMALL).collect();
    pairs(&small).collect()
}

/// Powers of two and of ten, a half and a third of the range and 0, each with its neighbours, of either sign.
fn numbers_of_note() -> Vec<i64> {
    let powers = (1..=31)
        .map(|bits| 1 << bits)
        .chain((1..=9).map(|zeros| 10i64.pow(zeros)));
    let sizes = powers.chain([0, 1_073_741_823, 715_827_882, 46_340, 65_537]);
    let signed = sizes.flat_map(|size| (-3..=3).flat_map(move |beside| [size + beside, beside - size]));
    let in_range: BTreeSet<i64> = signed.filter(|number| (LOWEST..=HIGHEST).contains(number)).collect();
    in_range.into_iter().collect()
}

#[test]
fn every_small_pair_by_both_halves() {
    let mut tried = 0;
    for (dividend, divisor) in small_pairs() {
        let script = format!("$Quot,{dividend},{divisor}; $Rem,{dividend},{divisor};");
        let given = end(&script).output;
        let (quotient, remainder) = text(&given).split_once(' ').expect("two numbers");
        let (quotient, remainder) = (quotient.parse().expect(&script), remainder.parse().expect(&script));
        assert!(fits(dividend, divisor, quotient, remainder), "{script}");
        tried += 1;
    }
    assert_eq!(tried, 6_480);
}

/// No other quotient and remainder fit: all remainders are tried, and all quotients a good way beyond the dividend.
#[test]
fn no_others_fit_a_small_pair() {
    for (dividend, divisor) in small_pairs() {
        let all = (-SMALL - 5..=SMALL + 5).flat_map(|quotient| (0..divisor.abs()).map(move |rest| (quotient, rest)));
        let fitting: Vec<(i64, i64)> = all
            .filter(|&(quotient, remainder)| fits(dividend, divisor, quotient, remainder))
            .collect();
        let given = (quotient(dividend, divisor), remainder(dividend, divisor));
        let [(quotient, remainder)] = fitting[..] else {
            panic!("{fitting:?} fit {dividend} by {divisor}");
        };
        assert_eq!(given, (Ok(quotient), Ok(remainder)), "{dividend} by {divisor}");
    }
}

/// Of all these pairs one quotient alone is out of range, and no remainder.
#[test]
fn every_pair_of_note() {
    let (mut tried, mut refused) = (0, Vec::new());
    for (dividend, divisor) in pairs(&numbers_of_note()) {
        tried += 1;
        let remainder = remainder(dividend, divisor).expect("a remainder is never out of range");
        match quotient(dividend, divisor) {
            Ok(quotient) => assert!(fits(dividend, divisor, quotient, remainder), "{dividend} by {divisor}"),
            Err(outcome) => refused.push((outcome, dividend, divisor, remainder)),
        }
    }
    assert_eq!(refused, [(24, LOWEST, -1, 0)]);
    assert_eq!(tried, 306_362);
}

/// With a quotient one more or one less the remainder is no longer between 0 and the divisor's size.
#[test]
fn no_neighbour_fits_a_pair_of_note() {
    for (dividend, divisor) in pairs(&numbers_of_note()) {
        let Ok(quotient) = quotient(dividend, divisor) else {
            continue;
        };
        for other in [quotient - 1, quotient + 1] {
            let rest = dividend - divisor * other;
            assert!(!fits(dividend, divisor, other, rest), "{dividend} by {divisor}");
        }
    }
}

/// What document 01 had, "cut towards zero", is given still where the dividend is not negative or is a multiple, and
/// nowhere else.
#[test]
fn where_the_rule_of_document_01_gave_the_same() {
    let (mut the_same, mut other) = (0, 0);
    for (dividend, divisor) in small_pairs() {
        let cut = (Ok(dividend / divisor), Ok(dividend % divisor));
        let given = (quotient(dividend, divisor), remainder(dividend, divisor));
        if dividend >= 0 || dividend % divisor == 0 {
            assert_eq!(given, cut, "{dividend} by {divisor}");
            the_same += 1;
        } else {
            assert!(given.0 != cut.0 && given.1 != cut.1, "{dividend} by {divisor}");
            other += 1;
        }
    }
    assert_eq!((the_same, other), (3_596, 2_884));
}

/// "the divisor's size": its sign does nothing to a remainder, and turns the quotient round.
#[test]
fn size_of_the_divisor() {
    for (dividend, divisor) in pairs(&numbers_of_note()).filter(|pair| pair.0 > LOWEST && pair.1 > LOWEST) {
        assert_eq!(remainder(dividend, divisor), remainder(dividend, -divisor));
        let turned = quotient(dividend, -divisor).map(|quotient| -quotient);
        assert_eq!(quotient(dividend, divisor), turned, "{dividend} by {divisor}");
    }
}

#[test]
fn spellings() {
    check_outcomes(&[
        ("$Rem,-0001,+08;", 0, "7"),
        ("$Quot,-0007,-000000000000002;", 0, "4"),
        // Zero without a sign.
        ("$Rem,-8,8;$Rem,-8,-8;$Rem,-0,8;", 0, "000"),
        ("$Quot,-0,8;$Quot,0,-8;$Quot,7,-8;", 0, "000"),
        ("$Quot,-8,8;$Quot,-8,-8;$Quot,-9,8;$Quot,-9,-8;", 0, "-11-22"),
        ("$Quot,-1,8;$Quot,-1,-8;$Quot,-1,1;$Quot,-1,-1;", 0, "-11-11"),
        // Both ends of the range: eleven bytes at most.
        ("$Quot,-2147483648,1;$Quot,2147483647,-1;", 0, "-2147483648-2147483647"),
        (
            "$Quot,-2147483647,-1; $Quot,-2147483648,-2;",
            0,
            "2147483647 1073741824",
        ),
        ("$Quot,-2147483648,2147483647;$Rem,-2147483647,-2147483648;", 0, "-21"),
        // Surplus parameters are ignored.
        ("$Rem,-1,8,x;$Quot,-1,8,0,0;", 0, "7-1"),
    ]);
}

/// "First operand's 22, second's 22, 23, 24."
#[test]
fn refusals_in_their_order() {
    let refused = [
        ("x", "x", 22),
        ("x", "0", 22),
        ("-2147483649", "0", 22),
        ("-2147483649", "-1", 22),
        ("-1", "", 22),
        ("-1", "2147483648", 22),
        ("-2147483648", "-1x", 22),
        ("-1", "0", 23),
        ("-1", "-000", 23),
        ("0", "+0", 23),
        ("-2147483648", "0", 23),
    ];
    for (left, right, outcome) in refused {
        for operation in ["Quot", "Rem"] {
            let script = format!("${operation},{left},{right};");
            check_outcomes(&[(&script, outcome, "")]);
        }
    }
    check_outcomes(&[
        ("$Quot,-002147483648,-01;", 24, ""),
        ("$Rem,-002147483648,-01;", 0, "0"),
        ("$Quot,-1;", 13, ""),
        ("$Rem;", 13, ""),
    ]);
}

/// The 4 of the own cell, then 13, then the refusals, and only then the 4 or 5 of the result.
#[test]
fn refusals_beside_4_and_5() {
    check_lent(&[
        ("$Quot,-2147483648,-1;", 23, 0, "4 21 0 21 23 0"),
        ("$Quot,-2147483648,-1;", 24, 0, "24 21 0 21 24 0"),
        ("$Rem,-2147483648,-1;", 23, 0, "5 20 0 20 23 0"),
        ("$Rem,-2147483648,-1;", 23, 1, "0 20 1 21 23 0"),
        ("$Rem,-1,0;", 12, 0, "4 10 0 10 12 0"),
        ("$Rem,-1,0;", 13, 0, "23 10 0 10 13 0"),
        // `$a,` is 6, and there is no cell for a result.
        ("$a,$Quot,-2147483648,-1;;", 30, 0, "24 24 0 24 30 0"),
        ("$a,$Rem,-2147483648,-1;;", 29, 0, "4 23 0 23 29 0"),
        ("$a,$Rem,-1,0;;", 19, 0, "23 13 0 13 19 0"),
    ]);
}

/// Each of these results has another length than it had by the rule of document 01: `7` in place of `-1`, `-1` in
/// place of `0`, and `2147483647` in place of `-1`.
#[test]
fn last_byte_of_output_and_one_short() {
    check_lent(&[
        ("$Rem,-1,8;", 13, 1, "0 10 1 11 13 0"),
        ("$Rem,-1,8;", 13, 0, "5 10 0 10 13 0"),
        ("$Quot,-1,8;", 14, 2, "0 11 2 12 14 0"),
        ("$Quot,-1,8;", 14, 1, "5 11 0 11 14 0"),
        ("$Rem,-1,-2147483648;", 23, 10, "0 20 10 21 23 0"),
        ("$Rem,-1,-2147483648;", 23, 9, "5 20 0 20 23 0"),
        ("$Rem,-1,-2147483648;", 23, 2, "5 20 0 20 23 0"),
    ]);
}

/// The same results, collected: `$a,` is 6. The list of Rem is 12, that of Quot 13, and that of the long Rem 22; then
/// come the cell of `;` and the result.
#[test]
fn last_cell_and_one_short() {
    check_lent(&[
        ("$a,$Rem,-1,8;", 20, 0, "18 13 0 14 20 0"),
        ("$a,$Rem,-1,8;", 19, 0, "4 13 0 13 19 0"),
        ("$a,$Rem,-1,8;", 18, 0, "4 13 0 13 18 0"),
        ("$a,$Quot,-1,8;", 22, 0, "18 14 0 15 22 0"),
        ("$a,$Quot,-1,8;", 21, 0, "4 14 0 14 20 0"),
        ("$a,$Quot,-1,8;", 20, 0, "4 14 0 14 20 0"),
        ("$a,$Quot,-1,8;", 19, 0, "4 14 0 14 19 0"),
        ("$a,$Rem,-1,-2147483648;", 39, 0, "18 23 0 24 39 0"),
        ("$a,$Rem,-1,-2147483648;", 38, 0, "4 23 0 23 29 0"),
        ("$a,$Rem,-1,-2147483648;", 31, 0, "4 23 0 23 29 0"),
        ("$a,$Rem,-1,-2147483648;", 28, 0, "4 23 0 23 28 0"),
    ]);
    // The list goes, and the result's one cell or two stay.
    let rem = [4, 5, 6, 10, 11, 12, 13, 14, 15, 16, 17, 18, 7, 7];
    assert_eq!(charges("$a,$Rem,-1,8;"), rem);
    let quot = [4, 5, 6, 10, 11, 12, 13, 14, 15, 16, 17, 18, 19, 8, 8];
    assert_eq!(charges("$a,$Quot,-1,8;"), quot);
}

/// The sizes of the menus that are gone through.
const MENUS: [usize; 9] = [1, 2, 3, 7, 8, 10, 12, 100, 255];

/// One step up and one step down from every entry, by a divisor of either sign.
#[test]
fn one_step_from_every_entry() {
    for entries in MENUS {
        for entry in 0..entries {
            let (above, below) = ((entry + entries - 1) % entries, (entry + 1) % entries);
            check_outcomes(&[
                (&format!("$Rem,$-,{entry},1;,{entries};"), 0, &above.to_string()),
                (&format!("$Rem,$+,{entry},1;,{entries};"), 0, &below.to_string()),
                (&format!("$Rem,$-,{entry},1;,-{entries};"), 0, &above.to_string()),
            ]);
        }
        let last = (entries - 1).to_string();
        check_outcomes(&[(&format!("$Rem,-1,{entries};"), 0, &last)]);
    }
}

/// A place that a body moves by UPDATE, up from entry 0 of eight. `o` is 6 and `u` 33; the charge is highest where `$o;`
/// has given its byte within the lists of the body, at 79.
#[test]
fn place_that_is_updated() {
    let wheel = "$DEF,o,0;$DEF,u,<$UPDATE,o,$Rem,$-,$o;,1;,8;;>;";
    check(&[
        (&format!("{wheel}$u;$o;"), "0 53 1 87 81 2", "7"),
        (&format!("{wheel}$u;$o;$u;$o;"), "0 59 2 126 81 2", "76"),
    ]);
    check_lent(&[
        (&format!("{wheel}$u;$o;"), 81, 1, "0 53 1 87 81 2"),
        (&format!("{wheel}$u;$o;"), 80, 1, "4 50 0 72 80 2"),
        (&format!("{wheel}$u;$o;"), 81, 0, "5 53 0 85 81 2"),
    ]);
    let place = &standing(&format!("{wheel}$u;$u;$u;"))[1];
    assert_eq!((place.0.as_str(), place.1.as_str(), place.2), ("o", "5", 1));
}

/// So many turns of a wheel from an entry, up or down, each shown: a macro counts them down and calls itself.
fn turned(entries: usize, entry: usize, way: &str, turns: usize) -> String {
    let width = (entries - 1).to_string().len();
    let step = format!("$UPDATE,o,$Rem,${way},$VAL,o;,1;,{entries};;$o; ");
    let next = "$$IF,$SEQ,~1,1;,z,1,f;,$-,~1,1;;";
    let script = format!("$DEF,z,;$DEF,o,{entry:0width$};$DEF,f,<{step}{next}>;$f,{turns};");
    text(&end(&script).output).to_string()
}

/// Twice round each menu and one entry more, from every fifth entry.
#[test]
fn wheels_come_round() {
    for entries in MENUS.into_iter().filter(|&entries| entries < 40) {
        let turns = 2 * entries + 1;
        for entry in (0..entries).step_by(5) {
            let shown = |at: usize| format!("{} ", at % entries);
            let up: String = (1..=turns).map(|turn| shown(entry + 3 * entries - turn)).collect();
            let down: String = (1..=turns).map(|turn| shown(entry + turn)).collect();
            assert_eq!(turned(entries, entry, "-", turns), up, "{entries} entries");
            assert_eq!(turned(entries, entry, "+", turns), down, "{entries} entries");
        }
    }
}

/// A result is an operand, a name and a first like any other.
#[test]
fn results_that_are_used() {
    check_outcomes(&[
        ("$+,$*,2,$Quot,-7,2;;,$Rem,-7,2;;", 0, "-7"),
        ("$+,$*,-2,$Quot,-7,-2;;,$Rem,-7,-2;;", 0, "-7"),
        ("$Rem,$Rem,-1,8;,$Quot,-7,2;;", 0, "3"),
        ("$DEF,7,<last>;$$Rem,-1,8;;", 0, "last"),
        ("$DEF,-4,<[~0]>;$$Quot,-7,2;;", 0, "[-4]"),
        ("$IF,$Rem,-7,2;,odd,1,even;$IF,$Rem,-8,2;,odd,1,even;", 0, "oddeven"),
        ("$SEQ,$Rem,-1,8;,7;$SIZE,$Rem,-1,8;;$SIZE,$Quot,-1,8;;", 0, "112"),
        ("$DEF,up,<$Rem,$-,~1,1;,~2;>;$up,$up,$up,1,8;,8;,8;", 0, "6"),
        // A definition hides the name while it stands.
        ("$Rem,-1,8,$DEF,Rem,<mine>;;$Rem,-1,8;", 0, "mine7"),
    ]);
}

/// Under other signs the arithmetic is the same.
#[test]
fn under_other_signs() {
    let mut kinds = vec![0; 256];
    for (kind, sign) in (1..).zip(b"#/:!()") {
        kinds[usize::from(*sign)] = kind;
    }
    let table = Table::accepted(&kinds);
    let script = b"#DEF/u/(#Rem/#-/!1/1:/8:):#u/0:;#Quot/-7/2:;#Quot/-7/-2:;#Rem/-2147483648/-1:";
    let end = run_signs(&table, script, &Lent::PROGRAM);
    assert_eq!(text(&end.output), "7;-4;4;0");
    assert_eq!(substitute(script, &table.expect("accepted"), &BOUNDS), Some(end));
}
