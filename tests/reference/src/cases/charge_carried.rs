//! Document 02's request Three: a charge carried from scan to scan is the sum at every scan; and charges worked out by
//! hand, scan by scan.
use super::{after_each_scan, charges, check_lent, end, traced};
use crate::scanning::{run, Lent, Row};

/// A list: its bytes and commas, and how many definitions were made while it was collected, with their charge.
#[derive(Default)]
struct List {
    collected: usize,
    made: usize,
    charge_made: usize,
}

/// The figure that goes from scan to scan, raised and lowered by what each scan did. Nothing is summed over lists or
/// definitions; a definition is in the account of the innermost call that is open when it is made.
#[derive(Default)]
struct Carried {
    charge: usize,
    highest: usize,
    open: Vec<List>,
    bodies: Vec<List>,
    definitions: usize,
}

impl Carried {
    fn raise(&mut self, by: usize) {
        self.charge += by;
        self.highest = self.highest.max(self.charge);
    }

    /// What a scan did, by the calls and bodies before and after it.
    fn follow(&mut self, row: &Row) {
        let (calls, bodies) = (row.calls().len(), row.bodies().len());
        if calls > self.open.len() {
            self.opens();
        } else if bodies > self.bodies.len() {
            self.begins_body();
        } else if bodies < self.bodies.len() {
            let list = self.bodies.pop().expect("the body that ended");
            self.lower(&list);
        } else if calls < self.open.len() {
            self.acts(row);
        } else {
            self.collects(row);
        }
    }

    /// "An open call is charged 4".
    fn opens(&mut self) {
        self.raise(4);
        self.open.push(List::default());
    }

    /// "an applying `;` 1 before the name is looked up". The list stays charged until its body ends.
    fn begins_body(&mut self) {
        self.raise(1);
        self.bodies.extend(self.open.pop());
    }

    /// "each comma that ends an argument 1, each collected byte 1": what the innermost open call has more than before.
    fn collects(&mut self, row: &Row) {
        if let (Some(list), Some(call)) = (self.open.last_mut(), row.calls().last()) {
            // Beside bytes and commas the call is written with its `$`.
            let more = call.len() - 1 - list.collected;
            list.collected += more;
            self.raise(more);
        }
    }

    /// "A list's charge ends with its call", with its 4 and its `;`, and so do the definitions made meanwhile.
    fn lower(&mut self, list: &List) {
        self.charge -= 4 + list.collected + 1 + list.charge_made;
        self.definitions -= list.made;
    }

    /// A built-in: "A VAL or arithmetic result is charged before its list goes", and "DEF's list is exchanged for the
    /// definition".
    fn acts(&mut self, row: &Row) {
        self.raise(1);
        let list = self.open.pop().expect("the call applied");
        self.collects(row);
        self.lower(&list);
        if row.definitions().len() > self.definitions {
            self.defines(row);
        }
    }

    /// "A live definition is charged name length + defined value length + 4", by request Thirteen "5 in place of 4".
    fn defines(&mut self, row: &Row) {
        let (name, defined) = row.definitions().last().expect("the definition made");
        let charge = name.len() + defined + 5;
        self.raise(charge);
        self.definitions += 1;
        if let Some(list) = self.open.last_mut() {
            list.made += 1;
            list.charge_made += charge;
        }
    }

    /// The figure is the sum. A refused scan leaves it, with at most the cell of `;` allowed within it.
    fn is_the_sum(&self, row: &Row, script: &str) {
        assert_eq!(self.charge, row.charge(), "{script} at scan {}", row.scan());
        let highest = match row.ended() {
            true if row.most() > self.highest => self.charge + 1,
            _ => self.highest,
        };
        assert_eq!(highest, row.most(), "{script} at scan {}", row.scan());
    }
}

/// Runs a script with the figure carried beside the sum; whether it finished, and how many definitions went with lists.
fn carried_beside(script: &str) -> (bool, usize) {
    let (mut carried, mut gone) = (Carried::default(), 0);
    let end = traced(script, &Lent::PROGRAM, &mut |row| {
        if !row.ended() {
            carried.follow(row);
        }
        carried.is_the_sum(row, script);
        gone = row.gone().definitions;
    });
    (end.report.outcome == 0, gone)
}

/// Every way to put five of these pieces together, after two definitions; the calls they open are applied.
fn five_pieces() -> impl Iterator<Item = String> {
    const PIECES: [&str; 8] = ["$DEF,m,", "$k,", "$VAL,m", "$UPDATE,m,", "$+,1,-2", ";", ",", "x"];
    let more = |pieces: String| PIECES.iter().map(move |piece| format!("{pieces}{piece}"));
    let head = "$DEF,k,<~1,$DEF,n,<ab>;~0>;$DEF,m,<yz>;".to_string();
    more(head)
        .flat_map(more)
        .flat_map(more)
        .flat_map(more)
        .flat_map(more)
        .map(|pieces| format!("{pieces};;;;;"))
}

/// "keep it as a value that goes from scan to scan", and "the figure is the one document 01 defines at every scan".
#[test]
fn figure_carried_is_the_sum() {
    let (mut finished, mut with_lists) = (0, 0);
    for script in five_pieces() {
        let (finishes, gone) = carried_beside(&script);
        finished += usize::from(finishes);
        with_lists += usize::from(finishes && gone > 1);
    }
    assert!(finished > 20_000 && with_lists > 5_000, "{finished} {with_lists}");
}

/// Both halves come to the same highest charge, as to all else.
#[test]
fn highest_charge_is_that_of_substitution() {
    for script in five_pieces().step_by(3) {
        end(&script);
    }
}

/// "Cells that are freed serve again, since 4 depends only on this sum": with fewer cells than a script needs, 4 comes
/// at the first scan whose charge is above them.
#[test]
fn four_comes_where_the_sum_is_above_the_cells() {
    for script in five_pieces().step_by(61) {
        let highest = after_each_scan(&script, |row| row.most());
        for cells in 0..*highest.last().expect("a scan") {
            let lent = Lent { cells, ..Lent::PROGRAM };
            let report = run(script.as_bytes(), &lent).report;
            let first = highest.partition_point(|&charge| charge <= cells) + 1;
            assert_eq!((report.outcome, report.scans), (4, first as u64), "{script} {cells}");
        }
    }
}

/// Each script in pieces, with the charge after each scan of a piece, worked out by hand.
fn check_charges(pieces: &[(&str, &[usize])]) {
    let script: String = pieces.iter().map(|piece| piece.0).collect();
    let worked_out: Vec<usize> = pieces.iter().flat_map(|piece| piece.1).copied().collect();
    assert_eq!(charges(&script), worked_out, "{script}");
    carried_beside(&script);
}

#[test]
fn definition_in_the_list_of_val() {
    check_charges(&[
        // The list of 13 with its `;` is exchanged for 1 + 2 + 5.
        ("$DEF,k,ab;", &[4, 5, 6, 7, 8, 9, 10, 11, 12, 8]),
        ("$i,$VAL,k", &[12, 13, 14, 18, 19, 20, 21, 22, 23]),
        // 35 with its `;`, then 12 fewer for the list and 7 more for the definition.
        ("$DEF,m,c;", &[27, 28, 29, 30, 31, 32, 33, 34, 30]),
        // 31, then 33 with the result that `$i,` collects; the list of 10 goes, and with it the definition of 7.
        (";", &[16]),
        ("x", &[17]),
        ("", &[17]),
    ]);
}

#[test]
fn freed_cells_serve_again() {
    let script = format!("$DEF,k,ab;$i,$VAL,k$DEF,m,c;;{}", "x".repeat(20));
    // 34 are one too few for the `;` of the inner DEF. 35 suffice there; the list and the definition that go free 17 of
    // them, 2 of them serve for the result, and the twentieth `x` would be the cell after the last.
    check_lent(&[
        (&script, 34, 0, "4 28 0 28 34 1"),
        (&script, 35, 0, "4 49 0 49 35 1"),
        (&script, 36, 0, "18 49 0 50 36 1"),
    ]);
}

#[test]
fn definitions_in_a_list_and_in_its_body() {
    check_charges(&[
        ("$DEF,k,<", &[4, 5, 6, 7, 8, 9, 10, 10]),
        ("x$DEF,m,c;", &[11, 12, 13, 14, 15, 16, 17, 18, 19, 20]),
        // 1 + 10 + 5.
        (">;", &[20, 16]),
        ("$k,", &[20, 21, 22]),
        ("$DEF,n,d;", &[26, 27, 28, 29, 30, 31, 32, 33, 29]),
        // The list stays charged while its body is read: `x` is written, then DEF makes a definition of 7 in the place
        // of its list of 12. At the end the list of 7 goes and the definition of 7 made in it; the body's own stays.
        (";", &[30, 30, 34, 35, 36, 37, 38, 39, 40, 41, 37, 23]),
        ("", &[23]),
    ]);
}

#[test]
fn definition_updated_in_the_list_of_update() {
    check_charges(&[
        ("$DEF,k,abc;", &[4, 5, 6, 7, 8, 9, 10, 11, 12, 13, 9]),
        ("$UPDATE,k", &[13, 14, 15, 16, 17, 18, 19, 20, 21]),
        ("$DEF,k,z;", &[25, 26, 27, 28, 29, 30, 31, 32, 28]),
        // The newest `k` gets an empty value and stays charged by its defined one: 7 go, and the list of 14.
        (",;", &[29, 9]),
        ("a", &[9]),
        ("", &[9]),
    ]);
}

#[test]
fn shorter_value_is_charged_by_the_defined_one() {
    check_charges(&[
        ("$DEF,k,abc;", &[4, 5, 6, 7, 8, 9, 10, 11, 12, 13, 9]),
        // The list of 13 goes, and the definition is charged 9 as before.
        ("$UPDATE,k,z;", &[13, 14, 15, 16, 17, 18, 19, 20, 21, 22, 23, 9]),
        ("$e,", &[13, 14, 15]),
        // The result is the value of one byte.
        ("$VAL,k;", &[19, 20, 21, 22, 23, 24, 16]),
        ("", &[16]),
    ]);
}

#[test]
fn parameters_and_a_comma_out_of_a_body() {
    check_charges(&[
        ("$DEF,k,<", &[4, 5, 6, 7, 8, 9, 10, 10]),
        ("~1,~0>;", &[11, 12, 13, 14, 15, 15, 11]),
        ("$e,$k,abc", &[15, 16, 17, 21, 22, 23, 24, 25, 26]),
        // Its own cell; then parameter 1 of three bytes, the comma, the name, and the list of 10 goes.
        (";", &[27, 30, 31, 32, 22]),
        ("", &[22]),
    ]);
}

#[test]
fn definition_in_the_list_of_arithmetic() {
    check_charges(&[
        ("$-,3", &[4, 5, 6, 7]),
        ("$DEF,m,c;", &[11, 12, 13, 14, 15, 16, 17, 18, 14]),
        // The result is written and not charged; the list of 10 goes and the definition of 7.
        (",5;", &[15, 16, 0]),
        ("", &[0]),
    ]);
    check_charges(&[
        // Collected in a name: 14, then 16 with the result of two bytes, and the list of 10 goes.
        ("$$-,3,5;", &[4, 8, 9, 10, 11, 12, 13, 6]),
        ("", &[6]),
    ]);
}

#[test]
fn definition_in_the_list_of_def() {
    check_charges(&[
        ("$a,$DEF,m,", &[4, 5, 6, 10, 11, 12, 13, 14, 15, 16]),
        ("$DEF,n,x;", &[20, 21, 22, 23, 24, 25, 26, 27, 23]),
        // 25; the list of 12 goes and `n` with 7, and `m` comes with 7.
        ("y;", &[24, 13]),
        // An empty value: the list of 11 is exchanged for 6.
        ("$DEF,o,;", &[17, 18, 19, 20, 21, 22, 23, 19]),
        // Two definitions stand in the list of a call that is not defined, and none of them goes.
        (";", &[19]),
    ]);
}
