//! What SEQ, SIZE and IF come to in a run, as its scanning tells it.
use reference::scanning::Row;

/// What is counted beside the outcomes: what each of the three gave, and the ends at a call of one of them or of VAL,
/// UPDATE or LOCK for its name. IF gives by its first pair or by a later one what is not empty.
pub const WAYS: [&str; 12] = [
    "SEQ gave 1",
    "SEQ gave 0",
    "SIZE gave 2 digits up",
    "IF gave by its first",
    "IF gave by a later",
    "IF gave nothing",
    "13 of SEQ",
    "13 of SIZE",
    "13 of IF",
    "19 of the three",
    "4 at their result",
    "5 at their result",
];

const NAMES: [&[u8]; 3] = [b"SEQ", b"SIZE", b"IF"];

/// Which of the ways a run came to.
pub type Ways = [bool; WAYS.len()];

/// The way that a scan went, if one, with so many cells lent. At `;` 13 and 5 are of a built-in, and so is 4 where its
/// own cell was allowed.
pub fn way(row: &Row, cells: usize) -> Option<usize> {
    let list = row.applied()?;
    match row.outcome {
        None => given(&list),
        Some(13) => of_the_three(list[0]).map(|name| 6 + name),
        Some(19) => of_the_three(list[1]).map(|_| 9),
        Some(4) if row.charge() < cells => of_the_three(list[0]).map(|_| 10),
        Some(5) => of_the_three(list[0]).map(|_| 11),
        _ => None,
    }
}

fn of_the_three(name: &[u8]) -> Option<usize> {
    NAMES.iter().position(|&one| one == name)
}

/// The way of a result.
fn given(list: &[&[u8]]) -> Option<usize> {
    match *list {
        [b"SEQ", left, right, ..] => Some(usize::from(left != right)),
        [b"SIZE", parameter, ..] => (parameter.len() > 9).then_some(2),
        [b"IF", ref parameters @ ..] => chosen(parameters),
        _ => None,
    }
}

fn chosen(parameters: &[&[u8]]) -> Option<usize> {
    let mut pairs = parameters.chunks_exact(2);
    let Some(pair) = pairs.position(|pair| pair[0] == b"1") else {
        return Some(5);
    };
    let second = parameters[2 * pair + 1];
    (!second.is_empty()).then_some(if pair == 0 { 3 } else { 4 })
}
