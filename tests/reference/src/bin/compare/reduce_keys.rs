//! Keys whose call shows a difference, made as few and plain as they can be while one remains.
use crate::keys::Keys;
use crate::lending::LONGEST;
use crate::memory::Memory;
use crate::recording::{check, CallDifference};
use crate::shorten::{Shorten, TIME};
use std::time::Instant;

pub struct Reduced {
    pub keys: Keys,
    pub difference: Box<CallDifference>,
    start: Instant,
}

impl Shorten for Reduced {
    fn bytes(&self) -> &[u8] {
        &self.keys.wanted
    }

    fn takes_bytes(&mut self, memory: &mut Memory, wanted: Vec<u8>) -> bool {
        if self.start.elapsed() > TIME {
            return false;
        }
        let outputs = outputs(&self.keys, wanted.len());
        let mut keys = Keys::call(wanted, 0);
        for output in outputs {
            keys.output = output;
            if let Err(difference) = check(memory, &keys) {
                (self.keys, self.difference) = (keys, difference);
                return true;
            }
        }
        false
    }
}

/// The output lent for so many keys, the simplest first: plenty, about what they need, hardly any, too much; then as
/// much as known keys had, and as much beside what they need.
fn outputs(known: &Keys, length: usize) -> [usize; 11] {
    let beside = (known.output + length).saturating_sub(known.wanted.len());
    let needs = length + 2;
    [
        LONGEST,
        needs,
        needs - 1,
        needs - 2,
        needs + 1,
        0,
        1,
        2,
        LONGEST + 1,
        known.output,
        beside,
    ]
}

pub fn reduce(memory: &mut Memory, keys: Keys, difference: Box<CallDifference>) -> Reduced {
    let mut reduced = Reduced {
        keys,
        difference,
        start: Instant::now(),
    };
    // All plain at once, which is fast where the length alone counts.
    let plain = b"a".repeat(reduced.bytes().len());
    reduced.takes_bytes(memory, plain);
    loop {
        let length = reduced.bytes().len();
        reduced.shorter(memory);
        reduced.without_pairs(memory);
        if reduced.bytes().len() == length {
            break;
        }
    }
    reduced.plainer(memory);
    let wanted = reduced.keys.wanted.clone();
    reduced.takes_bytes(memory, wanted);
    reduced
}
