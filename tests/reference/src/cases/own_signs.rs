//! Document 02's request Two: which signs are accepted, and scripts under signs other than the standard ones.
use super::{four_pieces, line, substituted, text, A, BOUNDS, LITTLE};
use crate::ends::{End, Standing};
use crate::scanning::{run, run_signs, run_traced, Lent};
use crate::signs::{Table, LIMIT};
use crate::substitution::{substitute, Bounds};

const STANDARD: &[u8; 6] = b"$,;~<>";

/// The bytes that are never signs, as the request names them.
const NEVER: &[u8] = b"ABCDEFGHIJKLMNOPQRSTUVWXYZabcdefghijklmnopqrstuvwxyz0123456789+-*";

/// The entries lent for six bytes, which have the kinds 1 to 6.
pub(super) fn lent(signs: &[u8; 6]) -> Vec<u8> {
    let mut entries = vec![0; 256];
    for (kind, &sign) in (1..).zip(signs) {
        entries[usize::from(sign)] = kind;
    }
    entries
}

/// The entries lent for the standard signs, with one entry changed.
pub(super) fn with(byte: u8, entry: u8) -> Vec<u8> {
    let mut entries = lent(STANDARD);
    entries[usize::from(byte)] = entry;
    entries
}

/// The entries lent for the standard signs, with one kind moved to another byte; what the byte was, the sign's is then.
pub(super) fn moved(kind: usize, byte: u8) -> Vec<u8> {
    let mut entries = lent(STANDARD);
    entries.swap(usize::from(STANDARD[kind - 1]), usize::from(byte));
    entries
}

fn outcome(signs: &[u8]) -> u64 {
    Table::accepted(signs).err().unwrap_or(0)
}

#[test]
fn standard_signs_are_accepted() {
    assert_eq!(lent(STANDARD), Table::STANDARD.kinds());
    assert_eq!(Table::accepted(&lent(STANDARD)), Ok(Table::STANDARD));
}

#[test]
fn signs_of_another_length() {
    let standard = lent(STANDARD);
    for length in [0, 1, 6, 128, 255, 257, 258, 512, LIMIT, LIMIT + 1] {
        let zeros: Vec<u8> = standard.iter().copied().chain([0].repeat(LIMIT)).take(length).collect();
        let repeated: Vec<u8> = standard.iter().copied().cycle().take(length).collect();
        assert_eq!((outcome(&zeros), outcome(&repeated)), (30, 30), "{length}");
    }
    assert_eq!(outcome(&standard[1..]), 30);
}

#[test]
fn entries_above_six() {
    for entry in 7..=255 {
        for byte in [0, b'!', b'$', b'>', b'A', 255] {
            assert_eq!(outcome(&with(byte, entry)), 30, "{byte} {entry}");
        }
    }
}

#[test]
fn signs_with_no_byte_or_several() {
    assert_eq!(outcome(&[0; 256]), 31);
    for (kind, &sign) in (1..).zip(STANDARD) {
        assert_eq!(outcome(&with(sign, 0)), 31, "{kind}");
        for byte in [0, b'!', b'@', 255] {
            assert_eq!(outcome(&with(byte, kind)), 31, "{kind} {byte}");
        }
        // One sign with no byte and the next with two.
        assert_eq!(outcome(&with(sign, kind % 6 + 1)), 31, "{kind}");
    }
}

#[test]
fn letters_digits_and_three_more_are_never_signs() {
    for kind in 1..=6 {
        let refused: Vec<u8> = (0..=255).filter(|&byte| outcome(&moved(kind, byte)) != 0).collect();
        assert!(refused.iter().all(|&byte| outcome(&moved(kind, byte)) == 32));
        let mut never = NEVER.to_vec();
        never.sort_unstable();
        assert_eq!(refused, never, "{kind}");
    }
}

#[test]
fn neighbours_of_what_is_never_a_sign() {
    for byte in *b"AZaz09+-*" {
        assert_eq!(outcome(&moved(1, byte)), 32, "{byte}");
    }
    for byte in *b"@[`{/:,.)\x00\x7f\x80\xff" {
        assert_eq!(outcome(&moved(1, byte)), 0, "{byte}");
    }
    assert_eq!(outcome(&lent(b"@[`{/:")), 0);
    assert_eq!(outcome(&lent(b"\x00\xff,.)~")), 0);
}

/// The line of a run with these lent.
fn report(signs: &[u8], script: &[u8], cells: usize, output: usize, allowance: u64) -> String {
    let lent = Lent {
        cells,
        output,
        allowance,
        numbers: None,
    };
    line(&run_signs(&Table::accepted(signs), script, &lent))
}

#[test]
fn order_of_the_checks() {
    let long = vec![b'x'; LIMIT + 1];
    // Each of these has all the faults of those after it, but for the length.
    let mut faults = moved(1, b'A');
    assert_eq!(outcome(&faults), 32);
    faults[usize::from(b',')] = 0;
    assert_eq!(outcome(&faults), 31);
    faults[usize::from(b'!')] = 7;
    assert_eq!(outcome(&faults), 30);
    faults.push(0);
    for (signs, outcome) in [
        (faults, "30 0 0 0 0 0"),
        (with(b'!', 7), "30 0 0 0 0 0"),
        (with(b'$', 0), "31 0 0 0 0 0"),
        (with(b'A', 1), "31 0 0 0 0 0"),
        (moved(3, b'9'), "32 0 0 0 0 0"),
    ] {
        let nothing = "2 0 0 0 0 0";
        assert_eq!(report(&signs, &long, 0, 0, 0), nothing);
        assert_eq!(report(&signs, b"", LIMIT + 1, 0, 0), nothing);
        assert_eq!(report(&signs, b"", 0, LIMIT + 1, 0), nothing);
        assert_eq!(report(&signs, &long[1..], LIMIT, LIMIT, u64::MAX), outcome);
        // Before the first scan, which an allowance of 0 would refuse with 3.
        assert_eq!(report(&signs, b"$", 0, 0, 0), outcome);
    }
    assert_eq!(report(&lent(STANDARD), b"$", 0, 0, 0), "3 0 0 0 0 0");
}

/// The end under six bytes that are signs, which both halves give.
fn end_under(signs: &[u8; 6], script: &[u8]) -> End {
    let table = Table::accepted(&lent(signs));
    let scanned = run_signs(&table, script, &Lent::PROGRAM);
    let substituted = substitute(script, &table.expect("accepted signs"), &BOUNDS);
    assert_eq!(substituted.as_ref(), Some(&scanned), "{}", script.escape_ascii());
    scanned
}

/// Each script with its report and its output.
fn check_under(signs: &[u8; 6], cases: &[(&[u8], &str, &[u8])]) {
    for &(script, report, output) in cases {
        let end = end_under(signs, script);
        let told = (line(&end), end.output.as_slice());
        assert_eq!(told, (report.to_string(), output), "{}", script.escape_ascii());
    }
}

#[test]
fn dollar_and_semicolon_in_key_names() {
    check_under(
        b"#,|~<>",
        &[
            (b"#DEF,$k;,<p~1>|#$k;,7|", "0 22 2 26 21 1", b"p7"),
            (b"$DEF,k,x;$k;", "0 12 12 13 0 0", b"$DEF,k,x;$k;"),
            (b"#DEF,k,<$~1;>|#k,;|", "0 19 3 24 18 1", b"$;;"),
            (b"#DEF,k,<~;>|#k|", "12 15 0 16 14 1", b""),
            (b"#k;|", "15 4 0 4 7 0", b""),
            (b"a|b", "0 3 3 4 0 0", b"a|b"),
            (b"#+,1,2|", "0 7 1 8 10 0", b"3"),
            (b"$+,1,2;", "0 7 7 8 0 0", b"$+,1,2;"),
        ],
    );
}

#[test]
fn signs_exchanged_among_themselves() {
    check_under(
        b"><~;,$",
        &[
            (b">DEF<k<,p;1$~>k<7~", "0 18 2 22 17 1", b"p7"),
            (b"a,b,c$d$e", "0 9 7 10 0 0", b"ab,c$de"),
            (b"p$q", "1 2 1 2 0 0", b"p"),
            (b">a<;1~", "11 4 0 4 6 0", b""),
            (b"a<b~c;d", "0 7 7 8 0 0", b"a<b~c;d"),
            (b">a,b", "17 4 0 5 6 0", b""),
        ],
    );
    // The quotes alone.
    check_under(b"$,;~><", &[(b"$DEF,k,>p~1<;$k,7;", "0 18 2 22 17 1", b"p7")]);
}

#[test]
fn signs_that_are_control_bytes_or_above_127() {
    let case_a = b"\x01DEF\x02k\x02\x05p\x041\x06\x03\x01k\x027\x03";
    check_under(
        b"\x01\x02\x03\x04\x05\x06",
        &[
            (case_a, "0 18 2 22 17 1", b"p7"),
            (A.as_bytes(), "0 18 18 19 0 0", A.as_bytes()),
            (b"\x05<\x05>\x06~\x06,", "0 8 6 9 0 0", b"<\x05>\x06~,"),
        ],
    );
    check_under(
        b"\x00\xff\x80\x7f\n ",
        &[
            (b"\x00DEF\xffk\xff\np\x7f1 \x80\x00k\xff7\x80", "0 18 2 22 17 1", b"p7"),
            (b"\x00j\x80", "15 3 0 3 6 0", b""),
            (b"x y", "1 2 1 2 0 0", b"x"),
        ],
    );
}

#[test]
fn letters_fetch_under_other_signs() {
    check_under(
        b"[.:@{}",
        &[
            (b"[DEF.k.{@a@b}:[k.1.2.3.4.5.6.7.8.9.A.B:", "0 39 2 43 38 1", b"AB"),
            (b"[DEF.k.{@A}:[k.1:", "12 17 0 18 16 1", b""),
            (b"[DEF.k.{@~1}:[k.1:", "12 18 0 19 17 1", b""),
        ],
    );
}

/// Bytes with the standard signs and six others exchanged one for one.
pub(super) fn exchange(bytes: &[u8], signs: &[u8; 6]) -> Vec<u8> {
    let exchanged = exchanged_bytes(signs);
    bytes.iter().map(|&byte| exchanged[usize::from(byte)]).collect()
}

/// What each byte becomes. A byte that gives way to a sign becomes a standard sign that is none any more.
fn exchanged_bytes(signs: &[u8; 6]) -> Vec<u8> {
    let mut exchanged: Vec<u8> = (0..=255).collect();
    for (&standard, sign) in STANDARD.iter().zip(signs) {
        let holder = exchanged
            .iter()
            .position(|byte| byte == sign)
            .expect("each byte is held");
        exchanged.swap(usize::from(standard), holder);
    }
    exchanged
}

fn exchange_end(end: End, signs: &[u8; 6]) -> End {
    let standing = end.standing.iter().map(|it| Standing {
        name: exchange(&it.name, signs),
        value: exchange(&it.value, signs),
        defined: it.defined,
        locked: it.locked,
    });
    End {
        report: end.report,
        output: exchange(&end.output, signs),
        origins: end.origins,
        rules: end.rules,
        standing: standing.collect(),
    }
}

/// The end under six other signs is the standard one, exchanged; by both halves.
fn ends_alike(signs: &[u8; 6], script: &str) {
    const FEW: Bounds = Bounds { scans: 500, ..BOUNDS };
    let (other, table) = (exchange(script.as_bytes(), signs), Table::accepted(&lent(signs)));
    let scanned = exchange_end(run(script.as_bytes(), &LITTLE), signs);
    assert_eq!(run_signs(&table, &other, &LITTLE), scanned, "{script}");
    let standard = substituted(script, &FEW).map(|end| exchange_end(end, signs));
    let table = table.expect("accepted signs");
    assert_eq!(substitute(&other, &table, &FEW), standard, "{script}");
}

/// "What is shown about scanning and substitution is shown for every accepted table together."
#[test]
fn scripts_with_signs_exchanged_end_alike() {
    const OTHERS: [&[u8; 6]; 5] = [b"#,|~<>", b"><~;,$", b"$,;~><", b"\x00\xff\x80\x7f\n ", b"(@>$[%"];
    for (place, pieces) in four_pieces().enumerate() {
        let signs = OTHERS[place % OTHERS.len()];
        ends_alike(signs, &format!("$DEF,k,<{pieces}>;$k,1(,[2#,|,4,5,6,7,8,9,A;"));
        ends_alike(signs, &format!("$DEF,k,<~1>;{pieces}"));
    }
}

#[test]
fn standard_signs_lent_are_the_standard_signs() {
    let table = Table::accepted(&lent(STANDARD));
    for script in four_pieces() {
        let lent_signs = run_signs(&table, script.as_bytes(), &Lent::PROGRAM);
        assert_eq!(lent_signs, run(script.as_bytes(), &Lent::PROGRAM), "{script}");
    }
}

#[test]
fn trace_writes_calls_with_the_signs_in_force() {
    let mut last = Vec::new();
    run_traced(
        &Table::accepted(&lent(b"#.|~<>")),
        b"#a.b",
        &Lent::PROGRAM,
        &mut |row| last = row.calls(),
    );
    assert_eq!(last.iter().map(|call| text(call)).collect::<Vec<&str>>(), ["#a.b"]);
}
