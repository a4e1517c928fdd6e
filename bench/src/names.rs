//! Names by their group: the index of definitions has 64 groups, by the sum of a name's bytes modulo 64. Names are of
//! letters and digits, five bytes each, so that m4 takes them too.
const GROUPS: usize = 64;

const DIGITS_AND_LETTERS: &[u8; 62] = b"0123456789ABCDEFGHIJKLMNOPQRSTUVWXYZabcdefghijklmnopqrstuvwxyz";

/// So many names, spread evenly over all groups.
pub fn spread(count: usize) -> Vec<String> {
    apart(count, &[])
}

/// So many names, spread evenly over the groups in which none of the others is.
pub fn apart(count: usize, others: &[&str]) -> Vec<String> {
    let free = |number: &usize| others.iter().all(|other| group(other) != *number);
    let mut groups: Vec<_> = (0..GROUPS).filter(free).map(of_group).collect();
    let turns = groups.len();
    let next = |at: usize| groups[at % turns].next().expect("a name of each group");
    (0..count).map(next).collect()
}

/// So many names, all in the group of the other.
pub fn together(count: usize, other: &str) -> Vec<String> {
    of_group(group(other)).take(count).collect()
}

fn of_group(number: usize) -> impl Iterator<Item = String> {
    (0..).map(numbered).filter(move |name| group(name) == number)
}

fn group(name: &str) -> usize {
    name.bytes().map(usize::from).sum::<usize>() % GROUPS
}

/// An `n` and four places that count up.
fn numbered(number: usize) -> String {
    let base = DIGITS_AND_LETTERS.len();
    let place = |power: u32| char::from(DIGITS_AND_LETTERS[number / base.pow(power) % base]);
    ['n', place(3), place(2), place(1), place(0)].iter().collect()
}
