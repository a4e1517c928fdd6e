//! Document 01's "Arithmetic", on decimal text; Quot and Rem by document 02's request Seven.

#[derive(Clone, Copy, Debug, PartialEq, Eq)]
pub enum Operation {
    Plus,
    Minus,
    Times,
    Quot,
    Rem,
}

const LOWEST: i64 = -2_147_483_648;
const HIGHEST: i64 = 2_147_483_647;

/// The decimal result, or the outcome that refuses: first operand's 22, second's 22, 23, 24.
pub fn reckon(operation: Operation, left: &[u8], right: &[u8]) -> Result<Vec<u8>, u64> {
    let left = operand(left).ok_or(22u64)?;
    let right = operand(right).ok_or(22u64)?;
    let result = match operation {
        Operation::Plus => left + right,
        Operation::Minus => left - right,
        Operation::Times => left * right,
        Operation::Quot | Operation::Rem if right == 0 => return Err(23),
        // Request Seven: "a remainder from 0 up to one less than the divisor's size. Rem is to do that, and Quot is
        // then the whole number that fits: dividend = divisor × quotient + remainder."
        Operation::Rem => left.rem_euclid(right),
        Operation::Quot => (left - left.rem_euclid(right)) / right,
    };
    if !(LOWEST..=HIGHEST).contains(&result) {
        return Err(24);
    }
    Ok(result.to_string().into_bytes())
}

/// "An operand is an optional `+` or `-` and one or more digits"; none if it is not, or is out of range.
fn operand(text: &[u8]) -> Option<i64> {
    let (negative, digits) = match text.split_first() {
        Some((b'-', digits)) => (true, digits),
        Some((b'+', digits)) => (false, digits),
        _ => (false, text),
    };
    if digits.is_empty() {
        return None;
    }
    let mut size = 0;
    for digit in digits {
        if !digit.is_ascii_digit() {
            return None;
        }
        // "leading zeros count for nothing": they leave the size 0. A size too great only grows.
        size = size * 10 + i64::from(digit - b'0');
        if size > -LOWEST {
            return None;
        }
    }
    let number = if negative { -size } else { size };
    (LOWEST..=HIGHEST).contains(&number).then_some(number)
}
