//! The memory that is lent: full of rubbish, with guards around it that must keep theirs.
use crate::keys::Keys;
use crate::lending::LONGEST;
use crate::random::Random;
use crate::script::Script;
use reference::origins::Numbers;
use reference::scanning::Lent;
use std::ops::Range;

/// So many bytes, cells or numbers stand at least on each side.
const GUARD: usize = 64;
/// From where in the rubbish a run's may be taken.
const STARTS: usize = 1_024;

/// One of signs, text, cells, output, origins and rules.
pub struct Area<T> {
    rubbish: Vec<T>,
    bare: bool,
    whole: Vec<T>,
    /// From where in the rubbish the whole was filled.
    start: usize,
    /// Where the lent part stands in the whole.
    lent: Range<usize>,
}

impl<T: Copy + PartialEq> Area<T> {
    fn new(bare: bool, mut rubbish: impl FnMut() -> T) -> Area<T> {
        let rubbish = (0..STARTS + 2 * LONGEST + 4 * GUARD).map(|_| rubbish()).collect();
        Area {
            rubbish,
            bare,
            whole: Vec::new(),
            start: 0,
            lent: 0..0,
        }
    }

    /// Lends so much of it, at a place that is aligned now this way and now that. Bare, it is an allocation of exactly
    /// that length, which a memory checker watches.
    fn lend(&mut self, length: usize, start: usize) {
        self.start = start;
        if self.bare {
            self.lent = 0..length;
            self.whole = self.rubbish[start..start + length].to_vec();
            return;
        }
        let before = GUARD + start % 8;
        self.lent = before..before + length;
        self.whole.clear();
        self.whole
            .extend_from_slice(&self.rubbish[start..start + before + length + GUARD]);
    }

    /// Where the lent part begins, for the library alone. Where nothing is lent it is aligned and not null.
    pub fn pointer(&mut self) -> *mut T {
        self.whole.as_mut_ptr().wrapping_add(self.lent.start)
    }

    pub fn lent(&self) -> &[T] {
        &self.whole[self.lent.clone()]
    }

    fn kept(&self, places: Range<usize>) -> bool {
        self.whole[places.clone()] == self.rubbish[self.start..][places]
    }

    pub fn guards_kept(&self) -> bool {
        self.kept(0..self.lent.start) && self.kept(self.lent.end..self.whole.len())
    }

    /// Whether the lent part is as it was, from a place on.
    pub fn kept_from(&self, place: usize) -> bool {
        self.kept(self.lent.start + place..self.lent.end)
    }
}

/// Now any number, now one that might pass for a place or a length.
fn rubbish_cell(random: &mut Random) -> u32 {
    let small = random.below(300) as u32;
    if random.one_in(2) {
        small
    } else {
        random.next() as u32
    }
}

impl Area<u8> {
    /// Lends these bytes.
    fn lend_bytes(&mut self, bytes: &[u8], start: usize) {
        self.lend(bytes.len(), start);
        self.whole[self.lent.clone()].copy_from_slice(bytes);
    }
}

pub struct Memory {
    pub signs: Area<u8>,
    pub text: Area<u8>,
    pub cells: Area<u32>,
    pub output: Area<u8>,
    pub origins: Area<u32>,
    pub rules: Area<u32>,
}

impl Memory {
    /// Bare memory has no guards.
    pub fn new(bare: bool) -> Memory {
        let mut random = Random::new(0, 0);
        Memory {
            signs: Area::new(bare, || random.byte()),
            text: Area::new(bare, || random.byte()),
            cells: Area::new(bare, || rubbish_cell(&mut random)),
            output: Area::new(bare, || random.byte()),
            origins: Area::new(bare, || rubbish_cell(&mut random)),
            rules: Area::new(bare, || rubbish_cell(&mut random)),
        }
    }

    /// Lends signs, a text, cells, output and runs of numbers, with rubbish that the text and the sizes alone decide.
    /// The signs and the numbers are aligned otherwise than the rest.
    pub fn lend(&mut self, script: &Script, lent: &Lent) {
        let text = &script.text;
        let start = (text.len() * 31 + lent.cells * 7 + lent.output) % STARTS;
        let signs = script.signs().unwrap_or_default();
        self.signs
            .lend_bytes(signs, (text.len() * 3 + lent.allowance as usize % STARTS) % STARTS);
        self.text.lend_bytes(text, start);
        self.cells.lend(lent.cells, start);
        self.output.lend(lent.output, start);
        if let Some(Numbers { origins, rules }) = lent.numbers {
            self.origins.lend(origins, (start * 3 + origins) % STARTS);
            self.rules.lend(rules, (start * 5 + rules + 1) % STARTS);
        }
    }

    /// Lends wanted bytes, as the text, and output for their script. The two are aligned otherwise.
    pub fn lend_keys(&mut self, keys: &Keys) {
        let length = keys.wanted.len();
        self.text.lend_bytes(&keys.wanted, (length * 5 + keys.output) % STARTS);
        self.output.lend(keys.output, (length * 31 + keys.output * 7) % STARTS);
    }
}
