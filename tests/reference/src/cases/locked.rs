//! Document 02's request Nine: locked values, against both halves, with reports worked out by hand.
use super::nameless::scripts;
use super::own_signs::lent;
use super::{after_each_scan, charges, check, check_allowance, check_lent, check_outcomes, end, line, text, BOUNDS};
use crate::scanning::{run, run_signs, Lent};
use crate::signs::Table;
use crate::substitution::substitute;

#[test]
fn table_of_request_nine() {
    check(&[
        (
            "$DEF,s,100;$LOCK,s;$s;$VAL,s;$DEF,s,200;$UPDATE,s,300;$s;",
            "0 57 9 66 35 2",
            "100100300",
        ),
        ("$DEF,s,100;$LOCK,s;$LOCK,s;$UPDATE,s,1;", "36 39 0 39 24 1", ""),
        ("$DEF,s,<$UPDATE,s,;>;$LOCK,s;$s;", "36 32 0 43 37 1", ""),
        ("$DEF,s,1;$LOCK,s;$UPDATE,s,22;", "36 30 0 30 23 1", ""),
        ("$LOCK,DEF;", "19 10 0 10 13 0", ""),
        ("$LOCK,x;", "15 8 0 8 11 0", ""),
        ("$LOCK;", "13 6 0 6 9 0", ""),
        (
            "$DEF,s,1;$LOCK,s;$k,$DEF,s,2;$DEF,k,<$UPDATE,s,3;$s;>;;$UPDATE,s,4;",
            "36 67 1 85 57 1",
            "3",
        ),
        ("$DEF,s,<$LOCK,s;x>;$s;$UPDATE,s,y;", "36 34 1 44 32 1", "x"),
        ("$DEF,s,1;$LOCK,s$DEF,s,2;;$UPDATE,s,3;$s;", "0 41 1 44 29 1", "3"),
    ]);
}

/// Name, value and mark of each definition standing, newest first, as `s=1` or, locked, `s=1!`.
fn marks(script: &str) -> String {
    let shown = end(script).standing.into_iter().map(|it| {
        let mark = if it.locked { "!" } else { "" };
        format!("{}={}{mark}", text(&it.name), text(&it.value))
    });
    shown.collect::<Vec<_>>().join(" ")
}

fn check_marks(cases: &[(&str, &str)]) {
    for (script, shown) in cases {
        assert_eq!(marks(script), *shown, "{script}");
    }
}

/// "definitions standing are compared by it too": two ends that differ in a mark alone are not the same.
#[test]
fn ends_differ_by_a_mark() {
    let locked = end("$DEF,s,1;$LOCK,s;");
    let mut other = locked.clone();
    assert!(other.standing[0].locked);
    other.standing[0].locked = false;
    assert_ne!(locked, other);
    assert_ne!(locked.standing, end("$DEF,s,1;$SIZE,s;").standing);
    // All else of a call with as long a name and as many parameters is the same.
    let sized = end("$DEF,s,1;$DEF,e,$SIZE,s;;");
    let marked = end("$DEF,s,1;$DEF,e,$LOCK,s;1;");
    assert_eq!(sized.standing[0], marked.standing[0]);
    assert_ne!(sized.standing[1], marked.standing[1]);
}

#[test]
fn order_of_checks_of_update() {
    let locked = "$DEF,s,1;$LOCK,s;";
    let after = |script: &str, outcome: u64| check_outcomes(&[(&format!("{locked}{script}"), outcome, "")]);
    // 13, 15 and 19 before 36.
    after("$UPDATE,s;", 13);
    after("$UPDATE,t,2;", 15);
    after("$UPDATE,,2;", 15);
    after("$UPDATE,DEF,2;", 19);
    after("$UPDATE,LOCK,2;", 19);
    after("$UPDATE,s,2;", 36);
    after("$UPDATE,s,;", 36);
    after("$UPDATE,s,2,3;", 36);
    check_outcomes(&[
        // 36 before 20, before 21, and before both.
        ("$DEF,s,<$UPDATE,s,x;>;$s;", 20, ""),
        ("$DEF,s,<$UPDATE,s,x;>;$LOCK,s;$s;", 36, ""),
        ("$DEF,s,<$LOCK,s;$UPDATE,s,x;>;$s;", 36, ""),
        ("$DEF,s,<$t;>;$DEF,t,<$UPDATE,s,x;>;$LOCK,s;$s;", 36, ""),
        ("$DEF,s,1;$UPDATE,s,22;", 21, ""),
        ("$DEF,s,1;$LOCK,s;$UPDATE,s,22;", 36, ""),
        ("$DEF,s,;$LOCK,s;$UPDATE,s,1;", 36, ""),
        ("$DEF,s,<$UPDATE,s,0123456789abcdef;>;$LOCK,s;$s;", 36, ""),
        ("$DEF,s,<$UPDATE,s,0123456789abcdef;>;$s;", 20, ""),
        // A definition that hides a built-in has no 19, and is locked or not as others are.
        ("$DEF,+,1;$LOCK,+;$UPDATE,+,2;", 36, ""),
        ("$DEF,+,1;$UPDATE,+,2;$+;", 0, "2"),
        // 20 and 21 of one that is not locked, while another is.
        ("$DEF,t,1;$LOCK,t;$DEF,s,<$UPDATE,s,x;>;$s;", 20, ""),
        ("$DEF,t,1;$LOCK,t;$DEF,s,1;$UPDATE,s,22;", 21, ""),
        ("$DEF,s,1;$LOCK,s;$DEF,s,1;$UPDATE,s,22;", 21, ""),
    ]);
    check_lent(&[
        // The 4 of the own cell before 36, and 10 before that: the charge stands at 33 there.
        ("$DEF,s,1;$LOCK,s;$UPDATE,s,22;", 22, 0, "4 30 0 30 22 1"),
        ("$DEF,s,1;$LOCK,s;$UPDATE,s,22;", 23, 0, "36 30 0 30 23 1"),
        ("$DEF,s,1;$LOCK,s;$DEF,p,<;>;$UPDATE,s,$p;;", 33, 0, "10 41 0 42 33 2"),
    ]);
    check_allowance(&[
        ("$DEF,s,1;$LOCK,s;$UPDATE,s,22;", 30, "36 30 0 30 23 1"),
        ("$DEF,s,1;$LOCK,s;$UPDATE,s,22;", 29, "3 29 0 29 22 1"),
    ]);
}

#[test]
fn order_of_checks_of_lock() {
    check(&[
        ("$LOCK<>;", "13 8 0 8 9 0", ""),
        ("$LOCK,;", "15 7 0 7 10 0", ""),
        ("$LOCK,LOCK;", "19 11 0 11 14 0", ""),
        ("$VAL,LOCK;", "19 10 0 10 13 0", ""),
        ("$UPDATE,LOCK,x;", "19 15 0 15 18 0", ""),
        ("$LOCK,+,s;", "19 10 0 10 13 0", ""),
        // 7 for s, 11 for the list of LOCK.
        ("$DEF,s,1;$LOCK,s;", "0 17 0 18 18 1", ""),
    ]);
    check_lent(&[
        ("$LOCK;", 8, 0, "4 6 0 6 8 0"),
        ("$LOCK;", 9, 0, "13 6 0 6 9 0"),
        ("$LOCK,x;", 10, 0, "4 8 0 8 10 0"),
        ("$LOCK,x;", 11, 0, "15 8 0 8 11 0"),
        ("$LOCK,DEF;", 12, 0, "4 10 0 10 12 0"),
        ("$LOCK,DEF;", 13, 0, "19 10 0 10 13 0"),
        ("$DEF,s,1;$LOCK,s;", 17, 0, "4 17 0 17 17 1"),
        // It has no result, so that neither 4 nor 5 comes for one.
        ("$DEF,s,1;$LOCK,s;", 18, 0, "0 17 0 18 18 1"),
        ("$DEF,s,1;$SIZE,$LOCK,s;;", 26, 1, "4 23 0 23 26 1"),
        ("$DEF,s,1;$SIZE,$LOCK,s;;", 27, 1, "0 24 1 25 27 1"),
        ("$DEF,p,<;>;$DEF,s,1;$LOCK,s$p;;", 30, 0, "10 30 0 31 30 2"),
    ]);
    check_allowance(&[
        ("$DEF,s,1;$LOCK,s;", 16, "3 16 0 16 17 1"),
        ("$DEF,s,1;$LOCK,s;", 17, "3 17 0 17 18 1"),
        ("$DEF,s,1;$LOCK,s;", 18, "0 17 0 18 18 1"),
    ]);
    check_outcomes(&[("$lock,x;", 15, ""), ("$LOC,x;", 15, ""), ("$LOCKS,x;", 15, "")]);
    // 15 and 19 leave the mark of others as it is, and no mark comes of them.
    check_marks(&[
        ("$DEF,s,1;$LOCK,t;", "s=1"),
        ("$DEF,s,1;$DEF,t,2;$LOCK,s;$LOCK,VAL;", "t=2 s=1!"),
        ("$DEF,s,1;$LOCK;", "s=1"),
    ]);
}

/// "LOCK ... gives no text", wherever it stands.
#[test]
fn no_text() {
    check_outcomes(&[
        ("a$DEF,s,1;b$LOCK,s;c", 0, "abc"),
        (
            "$DEF,s,1;$SIZE,$LOCK,s;;$SEQ,$LOCK,s;,;$IF,$LOCK,s;1,x$LOCK,s;y;",
            0,
            "01xy",
        ),
        ("$DEF,s,1;$DEF,i,<[~1]>;$i,$LOCK,s;;$i,a$LOCK,s;b;", 0, "[][ab]"),
        ("$DEF,s,1;$DEF,l,<a$LOCK,~1;b>;$l,s;$SIZE,$l,s;;", 0, "ab2"),
        ("$DEF,s,1;$$LOCK,s;s;$s$LOCK,s;;", 0, "11"),
        ("$DEF,s,1;$DEF,t$LOCK,s;,2$LOCK,s;;$t;", 0, "2"),
        ("$DEF,s,1;$LOCK,$LOCK,s;s;$VAL,$LOCK,s;s;", 0, "1"),
        // It ends no argument.
        ("$DEF,s,1;$+,1$LOCK,s;,2;", 0, "3"),
    ]);
    let end = end("x$DEF,s,1;$LOCK,s;y");
    assert_eq!((end.origins, end.rules), (vec![1, 19], vec![1, 1]));
}

/// "Surplus parameters are ignored", and what stands in the first may be given by a call.
#[test]
fn names_of_lock() {
    check_marks(&[
        ("$DEF,s,1;$DEF,t,2;$LOCK,s,t;", "t=2 s=1!"),
        ("$DEF,s,1;$DEF,t,2;$LOCK,s,;$LOCK,t,$VAL,s;,x;", "t=2! s=1!"),
        ("$DEF,s,1;$LOCK,<s>;", "s=1!"),
        ("$DEF,s,1;$LOCK,<>s<>;", "s=1!"),
        ("$DEF,s,1;$LOCK,$IF,1,s;;", "s=1!"),
        ("$DEF,s,s;$LOCK,$s;;", "s=s!"),
        ("$DEF,s,s;$LOCK,$VAL,s;;", "s=s!"),
        ("$DEF,s,1;$DEF,ss,2;$LOCK,ss;", "ss=2! s=1"),
        ("$DEF,s,1;$DEF,ss,2;$LOCK,s;", "ss=2 s=1!"),
        ("$DEF,<,>,1;$LOCK,<,>;", ",=1!"),
        ("$DEF, ,1;$LOCK, ;", " =1!"),
        // The comma before the name comes out of a body, or the name of LOCK does.
        ("$DEF,s,1;$LOCK$p,$DEF,p,<,s>;;;", "s=1!"),
        ("$DEF,s,1;$$p,$DEF,p,LOCK;;,s;", "s=1!"),
        ("$DEF,s,1;$$p,$DEF,p,<LOCK,s>;;;", "s=1!"),
    ]);
}

/// "VAL and calls still work", and a mark is no part of what they give.
#[test]
fn value_and_calls() {
    check_outcomes(&[
        ("$DEF,s,<[~1]>;$LOCK,s;$s,a;$VAL,s;$s,b;", 0, "[a][~1][b]"),
        ("$DEF,s,12;$UPDATE,s,3;$LOCK,s;$s;$VAL,s;", 0, "33"),
        ("$DEF,s,<$t;>;$DEF,t,x;$LOCK,s;$LOCK,t;$s;$SIZE,$VAL,t;;", 0, "x1"),
        // A call that a locked definition is called by may UPDATE others.
        ("$DEF,s,<$UPDATE,t,y;>;$DEF,t,x;$LOCK,s;$s;$t;", 0, "y"),
    ]);
}

/// "Locking it again changes nothing".
#[test]
fn locked_again() {
    check_marks(&[
        ("$DEF,s,1;$LOCK,s;$LOCK,s;", "s=1!"),
        ("$DEF,s,1;$LOCK,s;$LOCK,s;$LOCK,s;", "s=1!"),
        ("$DEF,s,1;$DEF,s,2;$LOCK,s;$LOCK,s;", "s=2! s=1"),
        ("$DEF,s,<$LOCK,s;x>;$s;$s;$s;", "s=$LOCK,s;x!"),
    ]);
}

/// "A later DEF of the name makes a fresh unlocked definition", and the older one keeps its mark.
#[test]
fn later_definitions() {
    check_marks(&[
        ("$DEF,s,1;$LOCK,s;$DEF,s,2;", "s=2 s=1!"),
        ("$DEF,s,1;$LOCK,s;$DEF,s,2;$UPDATE,s,3;", "s=3 s=1!"),
        ("$DEF,s,1;$LOCK,s;$DEF,s,2;$LOCK,s;", "s=2! s=1!"),
        ("$DEF,s,1;$DEF,s,2;$LOCK,s;", "s=2! s=1"),
        ("$DEF,s,1;$LOCK,s;$DEF,s,2;$DEF,s,3;$LOCK,s;", "s=3! s=2 s=1!"),
        // With the value of the locked one.
        ("$DEF,s,1;$LOCK,s;$DEF,s,$VAL,s;;$UPDATE,s,2;", "s=2 s=1!"),
        // In a body, the locked one's own among them.
        (
            "$DEF,s,<$DEF,s,2;$UPDATE,s,3;>;$LOCK,s;$s;",
            "s=3 s=$DEF,s,2;$UPDATE,s,3;!",
        ),
    ]);
    check_outcomes(&[
        ("$DEF,s,1;$LOCK,s;$DEF,s,2;$LOCK,s;$UPDATE,s,3;", 36, ""),
        ("$DEF,s,1;$LOCK,s;$DEF,s,2;$LOCK,s;$DEF,s,3;$UPDATE,s,4;$s;", 0, "4"),
    ]);
}

/// The older one is found again when the newer goes, and each has its own mark.
#[test]
fn found_again() {
    check_marks(&[
        ("$DEF,s,1;$LOCK,s;$IF,0,$DEF,s,2;;", "s=1!"),
        ("$DEF,s,1;$IF,0,$DEF,s,2;$LOCK,s;;", "s=1"),
        ("$DEF,s,1;$LOCK,s;$IF,0,$DEF,s,2;$LOCK,s;;", "s=1!"),
        ("$DEF,s,1;$IF,0,$DEF,s,2;$LOCK,s;;$UPDATE,s,3;", "s=3"),
        // With the list of a body, with DEF's, VAL's and UPDATE's own.
        ("$DEF,e,;$DEF,s,1;$e,$DEF,s,2;$LOCK,s;;", "s=1 e="),
        ("$DEF,s,1;$DEF,t$DEF,s,2;$LOCK,s;,3;", "t=3 s=1"),
        ("$DEF,s,1;$VAL,s$DEF,s,2;$LOCK,s;;", "s=1"),
        ("$DEF,s,1;$DEF,t,2;$UPDATE,t,3$DEF,s,2;$LOCK,s;;", "t=3 s=1"),
    ]);
    check_outcomes(&[
        (
            "$DEF,s,1;$LOCK,s;$IF,1,$DEF,s,2;$UPDATE,s,3;$s;;$s;$UPDATE,s,4;",
            36,
            "31",
        ),
        ("$DEF,e,;$DEF,s,1;$LOCK,s;$e,$DEF,s,2;;$UPDATE,s,4;", 36, ""),
        ("$DEF,s,1;$IF,1,$DEF,s,2;$LOCK,s;$s;;$UPDATE,s,3;$s;", 0, "23"),
        ("$DEF,s,1;$IF,1,$DEF,s,2;$LOCK,s;$UPDATE,s,4;;", 36, ""),
        // Cells that are freed serve again.
        ("$IF,0,$DEF,s,1;$LOCK,s;;$DEF,s,1;$UPDATE,s,2;$s;", 0, "2"),
    ]);
}

/// The name is "looked up before the list goes": a definition of LOCK's own list is marked, and goes.
#[test]
fn own_list() {
    check_marks(&[
        ("$LOCK,s$DEF,s,1;;", ""),
        ("$DEF,s,1;$LOCK,s$DEF,s,2;;", "s=1"),
        ("$DEF,s,1;$LOCK,s,$DEF,s,2;;", "s=1"),
        ("$DEF,s,1;$LOCK,s$DEF,t,2;;", "s=1!"),
        ("$DEF,s,1;$LOCK,s$DEF,s,2;$LOCK,s;;", "s=1"),
        ("$DEF,s,1;$LOCK,s;$LOCK,s$DEF,s,2;;", "s=1!"),
        // Made in a body that the list calls, it is of the list.
        ("$DEF,m,<$DEF,s,1;>;$LOCK,s$m;;", "m=$DEF,s,1;"),
        // In the list of a LOCK another is locked.
        ("$DEF,s,1;$DEF,t,2;$LOCK,s$LOCK,t;;", "t=2! s=1!"),
    ]);
    check(&[
        ("$LOCK,s$DEF,s,1;;", "0 17 0 18 22 0", ""),
        ("$LOCK,s$DEF,s,1;;$s;", "15 20 0 20 22 0", ""),
    ]);
    check_outcomes(&[
        ("$UPDATE,s,2$DEF,s,1;$LOCK,s;;", 36, ""),
        ("$DEF,s,1;$UPDATE,s,2$LOCK,s;;", 36, ""),
        ("$DEF,s,1;$UPDATE,s$DEF,s,2;,3$LOCK,s;;", 36, ""),
        ("$DEF,s,1;$LOCK,s;$UPDATE,s$DEF,s,2;,3;", 0, ""),
    ]);
}

/// "the mark goes wherever this definition goes": those made in a body stay, when the list beneath them goes.
#[test]
fn definitions_around_go() {
    check_marks(&[
        ("$DEF,m,<$DEF,s,1;$LOCK,s;>;$m,x;", "s=1! m=$DEF,s,1;$LOCK,s;"),
        ("$m,12345$DEF,m,<$DEF,s,1;$LOCK,s;>;;", "s=1!"),
        ("$m,$DEF,t,2;$LOCK,t;$DEF,m,<$DEF,s,1;>;;", "s=1"),
        ("$m,$DEF,t,2;$DEF,m,<$DEF,s,1;$LOCK,s;$DEF,u,3;>;;", "u=3 s=1!"),
        ("$m,$DEF,t,2;$LOCK,t;$DEF,m,<$DEF,s,1;$DEF,u,3;$LOCK,u;>;;", "u=3! s=1"),
        // A body within a body, each with a list that goes.
        (
            "$m,$DEF,l,<$DEF,s,1;$LOCK,s;$DEF,t,2;>;$DEF,m,<$DEF,u,3;$l,$DEF,v,4;$LOCK,v;;$DEF,w,5;>;;",
            "w=5 t=2 s=1! u=3",
        ),
        (
            "$DEF,l,<$DEF,s,1;$LOCK,s;>;$m,xyz$DEF,m,<$l,$DEF,v,4;;$DEF,w,5;>;;",
            "w=5 s=1! l=$DEF,s,1;$LOCK,s;",
        ),
        // The body marks one of the list, or one from before.
        ("$DEF,s,1;$m,$DEF,s,2;$DEF,m,<$LOCK,s;>;;", "s=1"),
        ("$DEF,s,1;$m,$DEF,t,2;$DEF,m,<$LOCK,s;>;;", "s=1!"),
    ]);
    check_outcomes(&[
        ("$m,12345$DEF,m,<$DEF,s,1;$LOCK,s;>;;$s;$UPDATE,s,2;", 36, "1"),
        ("$m,$DEF,t,2;$LOCK,t;$DEF,m,<$DEF,s,1;>;;$UPDATE,s,2;$s;", 0, "2"),
        (
            "$m,$DEF,t,2;$LOCK,t;$DEF,m,<$DEF,s,1;>;;$DEF,t,2;$UPDATE,t,3;$t;",
            0,
            "3",
        ),
    ]);
}

/// The second call of m hides what the first made, which is locked as well.
#[test]
fn made_twice() {
    let script = "$DEF,m,<$DEF,s,~1;$LOCK,s;>;$m,1;$m,2;$s;";
    check_outcomes(&[(script, 0, "2")]);
    assert_eq!(marks(script), "s=2! s=1! m=$DEF,s,~1;$LOCK,s;");
    check_outcomes(&[(&format!("{script}$UPDATE,s,3;"), 36, "2")]);
}

/// "locked in a body that is read": the body goes on as it was, and the mark stays when it has ended.
#[test]
fn body_being_read() {
    check_outcomes(&[
        ("$DEF,s,<a$LOCK,s;b>;$s;$s;$VAL,s;", 0, "ababa$LOCK,s;b"),
        ("$DEF,s,<$LOCK,~0;x>;$s;$UPDATE,s,y;", 36, "x"),
        ("$s,$DEF,s,<$LOCK,s;x>;;", 0, "x"),
        ("$DEF,s,<$t;x>;$DEF,t,<$LOCK,s;>;$s;$UPDATE,s,y;", 36, "x"),
        // In the list of a call begun in the body, and in a body within it.
        ("$DEF,s,<$IF,1,x$LOCK,s;;>;$s;$UPDATE,s,y;", 36, "x"),
        ("$DEF,s,<$LOCK,s;$DEF,s,1;$UPDATE,s,2;$s;>;$s;", 0, "2"),
        // Read and locked, a newer one is updated, and then it is the locked one again.
        (
            "$DEF,s,<$LOCK,s;$IF,0,$DEF,s,1;$UPDATE,s,2;;x>;$s;$UPDATE,s,y;",
            36,
            "x",
        ),
    ]);
}

#[test]
fn hidden_by_a_definition() {
    check_outcomes(&[
        ("$DEF,LOCK,<[~1]>;$LOCK,s;", 0, "[s]"),
        ("$DEF,LOCK,<~1>;$LOCK;", 13, ""),
        ("$DEF,s,1;$DEF,LOCK,<[~1]>;$LOCK,s;$UPDATE,s,2;$s;", 0, "[s]2"),
        // VAL and UPDATE have no 19 then, and the hiding definition may be locked by a LOCK that is not hidden yet.
        ("$DEF,LOCK,ab;$UPDATE,LOCK,c;$VAL,LOCK;$LOCK;", 0, "cc"),
        ("$LOCK,LOCK$DEF,LOCK,<x>;;", 0, "x"),
        // Hidden while its list stands, and not after.
        (
            "$DEF,s,1;$LOCK,s,$DEF,LOCK,<(~1)>;;$UPDATE,s,2;$LOCK,s;$UPDATE,s,3;",
            36,
            "(s)",
        ),
        ("$DEF,s,1;$IF,1,$DEF,LOCK,;$LOCK,s;;$UPDATE,s,2;$s;", 0, "2"),
        // A macro that calls LOCK locks.
        ("$DEF,L,<$LOCK,~1;>;$DEF,s,1;$L,s;$UPDATE,s,2;", 36, ""),
    ]);
    check_marks(&[
        ("$DEF,s,1;$DEF,LOCK,;$LOCK,s;", "LOCK= s=1"),
        ("$DEF,s,1;$LOCK,s;$DEF,LOCK,;$LOCK,s;", "LOCK= s=1!"),
        ("$DEF,VAL,1;$LOCK,VAL;", "VAL=1!"),
    ]);
}

/// "there it stops, with the definitions that stood before that scan, none dropped", and none unlocked or altered.
#[test]
fn definitions_standing_at_36() {
    check_marks(&[
        ("$DEF,s,1;$LOCK,s;$UPDATE,s,2;$DEF,t,3;", "s=1!"),
        ("$DEF,s,12;$UPDATE,s,3;$LOCK,s;$UPDATE,s,4;", "s=3!"),
        // Those of UPDATE's own list, of the list around it and of a body's.
        ("$DEF,s,1;$LOCK,s;$UPDATE,s$DEF,t,3;,2$DEF,u,4;;", "u=4 t=3 s=1!"),
        ("$DEF,s,1;$LOCK,s;$x,$DEF,t,3;$LOCK,t;$UPDATE,s,2;;", "t=3! s=1!"),
        (
            "$DEF,s,1;$LOCK,s;$m,$DEF,t,3;$DEF,m,<$DEF,u,4;$LOCK,u;$UPDATE,s,2;>;;",
            "u=4! m=$DEF,u,4;$LOCK,u;$UPDATE,s,2; t=3 s=1!",
        ),
    ]);
    check(&[
        ("$DEF,s,1;$LOCK,s;$UPDATE,s$DEF,t,3;,2;", "36 38 0 38 31 2", ""),
        // In a body: s has 7, m 18, its call 6, UPDATE's list 15.
        ("$DEF,s,1;$LOCK,s;$DEF,m,<$UPDATE,s,2;>;$m;", "36 42 0 54 46 2", ""),
    ]);
}

/// So do other faults.
#[test]
fn marks_at_other_faults() {
    check_marks(&[
        ("$DEF,s,1;$LOCK,s;$j;", "s=1!"),
        ("$DEF,s,1;$LOCK,s;$a", "s=1!"),
        ("$DEF,s,1;$LOCK,s;p>q", "s=1!"),
        ("$DEF,s,1;$LOCK,j$LOCK,s;;", "s=1!"),
        ("$DEF,s,1;$LOCK,+$LOCK,s;;", "s=1!"),
        ("$a,$DEF,s,1;$LOCK,s;;", "s=1!"),
    ]);
}

/// LOCK's list goes as any other, and a definition is charged as before: a mark costs nothing.
#[test]
fn charge_of_a_mark() {
    let locked = charges("$DEF,s,1;$LOCK,s;$LOCK,s;x");
    assert_eq!(
        locked[8..],
        [7, 11, 12, 13, 14, 15, 16, 17, 7, 11, 12, 13, 14, 15, 16, 17, 7, 7, 7]
    );
    assert_eq!(locked, charges("$DEF,s,1;$SIZE,s;$SIZE,s;x"));
    // A definition of its list goes with it: 7 for s, 10 for `$LOCK,s`, and 7.
    assert_eq!(charges("$DEF,s,1;$LOCK,s$DEF,t,2;;")[23..], [28, 24, 7, 7]);
}

#[test]
fn under_other_signs() {
    let table = Table::accepted(&lent(b"#|:%[]"));
    for (script, report) in [
        (&b"#DEF|s|1:#LOCK|s:#UPDATE|s|22:"[..], "36 30 0 30 23 1"),
        (b"#DEF|s|[#UPDATE|s|:]:#LOCK|s:#s:", "36 32 0 43 37 1"),
        (b"#LOCK|DEF:", "19 10 0 10 13 0"),
        (b"#LOCK|x:", "15 8 0 8 11 0"),
        (b"#LOCK:", "13 6 0 6 9 0"),
        (b"#DEF|,|1:#LOCK|,:#UPDATE|,|2:", "36 29 0 29 22 1"),
        (b"$LOCK,x;", "0 8 8 9 0 0"),
    ] {
        let end = run_signs(&table, script, &Lent::PROGRAM);
        assert_eq!(line(&end), report, "{}", text(script));
        let substituted = substitute(script, table.as_ref().expect("accepted"), &BOUNDS);
        assert_eq!(substituted, Some(end), "{}", text(script));
    }
}

#[test]
fn trace_tells_what_is_found() {
    let script = "$DEF,s,<$LOCK,s;x>;$s;$VAL,s;$UPDATE,s,y;";
    // 0 where nothing is found; else 1, with 2 for one that is locked and 4 for one that is read.
    let found = after_each_scan(script, |row| {
        row.sought()
            .map_or(0, |it| 1 + 2 * usize::from(it.locked) + 4 * usize::from(it.read))
    });
    let found: Vec<usize> = found.into_iter().filter(|&found| found > 0).collect();
    assert_eq!(found, [1, 5, 3, 3]);
    let due = after_each_scan(script, |row| row.due().map_or(0, |list| list.len()));
    let due: Vec<usize> = due.into_iter().filter(|&due| due > 0).collect();
    assert_eq!(due, [3, 1, 2, 2, 3]);
}

/// What a piece of a script does to definitions of one name.
#[derive(Clone, Copy)]
enum Does {
    Define,
    Lock,
    Update,
    Open,
    Close,
}

const PIECES: [(&str, Does); 5] = [
    ("$DEF,s,1;", Does::Define),
    ("$LOCK,s;", Does::Lock),
    ("$UPDATE,s,2;", Does::Update),
    ("$IF,0,", Does::Open),
    (";", Does::Close),
];

/// A description of its own: the marks of the definitions of s, newest last, and for each open list how many stood
/// before it.
#[derive(Default)]
struct Described {
    marks: Vec<bool>,
    open: Vec<usize>,
}

impl Described {
    fn does(&mut self, piece: Does) -> Result<(), u64> {
        match piece {
            Does::Define => self.marks.push(false),
            Does::Lock => *self.marks.last_mut().ok_or(15u64)? = true,
            Does::Update if *self.marks.last().ok_or(15u64)? => return Err(36),
            Does::Update => {}
            Does::Open => self.open.push(self.marks.len()),
            // With no list open it is copied.
            Does::Close => self
                .open
                .pop()
                .into_iter()
                .for_each(|before| self.marks.truncate(before)),
        }
        Ok(())
    }

    /// The outcome after these pieces, unless one ended the run.
    fn all(&mut self, pieces: &[Does]) -> Result<(), u64> {
        pieces.iter().try_for_each(|&piece| self.does(piece))
    }
}

/// The pieces whose letters make up a word.
fn spelt(word: &str) -> (String, Vec<Does>) {
    let pieces = word.bytes().map(|letter| PIECES[usize::from(letter - b'a')]);
    pieces.unzip()
}

fn marks_of_s(standing: &[crate::ends::Standing]) -> Vec<bool> {
    let of_s = standing.iter().rev().filter(|it| it.name == b"s");
    of_s.map(|it| it.locked).collect()
}

/// 36 comes at UPDATE of what is locked and nowhere else, and the marks are those described.
#[test]
fn every_short_script() {
    let words = scripts(&["a", "b", "c", "d", "e"], 7);
    assert_eq!(words.len(), 97_656);
    let mut refused = 0;
    for word in words {
        let (script, pieces) = spelt(&word);
        let mut described = Described::default();
        let outcome = match described.all(&pieces) {
            Err(outcome) => outcome,
            Ok(()) if described.open.is_empty() => 0,
            Ok(()) => 18,
        };
        let end = end(&script);
        assert_eq!(end.report.outcome, outcome, "{script}");
        assert_eq!(marks_of_s(&end.standing), described.marks, "{script}");
        refused += usize::from(outcome == 36);
    }
    assert!(refused > 1_000, "{refused}");
}

/// The list of a body goes from beneath what the body made.
#[test]
fn every_short_list_and_body() {
    let words = scripts(&["a", "b", "c"], 3);
    let after = scripts(&["a", "b", "c"], 2);
    let mut refused = 0;
    for list in &words {
        for body in &words {
            refused += after
                .iter()
                .filter(|after| in_list_and_body(list, body, after) == 36)
                .count();
        }
    }
    assert!(refused > 1_000, "{refused}");
}

fn in_list_and_body(list: &str, body: &str, after: &str) -> u64 {
    let [list, body, after] = [list, body, after].map(spelt);
    let script = format!("$DEF,s,0;$DEF,m,<{}>;$m,{};{}", body.0, list.0, after.0);
    let mut described = Described::default();
    described.marks.push(false);
    let mut run = || {
        described.all(&list.1)?;
        let collected = described.marks.len();
        described.all(&body.1)?;
        described.marks.drain(1..collected);
        described.all(&after.1)
    };
    let outcome = run().err().unwrap_or(0);
    let end = end(&script);
    assert_eq!(end.report.outcome, outcome, "{script}");
    assert_eq!(marks_of_s(&end.standing), described.marks, "{script}");
    outcome
}

/// But for UPDATE, LOCK does what a macro does that gives nothing.
#[test]
fn as_a_macro_that_gives_nothing() {
    const PARTS: [&str; 7] = ["$DEF,s,", "$LOCK,s;", "$UPDATE,s,2;", "$s;", "x", ";", "$IF,1,"];
    let (mut finished, mut refused) = (0, 0);
    for script in scripts(&PARTS, 6) {
        let locks = end(&script);
        let hidden = run(format!("$DEF,LOCK,<$IF,0,;>;{script}").as_bytes(), &Lent::PROGRAM);
        match locks.report.outcome {
            0 => {
                assert_eq!((hidden.report.outcome, &hidden.output), (0, &locks.output), "{script}");
                finished += 1;
            }
            36 => {
                assert!(hidden.output.starts_with(&locks.output), "{script}");
                refused += 1;
            }
            _ => {}
        }
    }
    assert!(finished > 1_500 && refused > 300, "{finished} {refused}");
}
