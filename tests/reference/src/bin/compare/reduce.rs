//! A script that shows a difference, made as short and plain as it can be while one remains.
use crate::check::Difference;
use crate::examine::simplest;
use crate::grower::SIGNS;
use crate::memory::Memory;
use crate::script::Script;
use crate::shorten::{Shorten, PLAINER, TIME};
use reference::signs::{Table, PLAIN};
use std::collections::BTreeSet;
use std::time::Instant;

pub struct Reduced {
    pub script: Script,
    pub difference: Box<Difference>,
    start: Instant,
}

impl Reduced {
    /// Takes the other script if it shows a difference too.
    fn takes(&mut self, memory: &mut Memory, script: Script) -> bool {
        if self.start.elapsed() > TIME {
            return false;
        }
        let Some(difference) = simplest(memory, &script, self.difference.run.lent) else {
            return false;
        };
        self.script = script;
        self.difference = difference;
        true
    }

    fn takes_signs(&mut self, memory: &mut Memory, signs: Option<Vec<u8>>) -> bool {
        self.takes(memory, self.script.with_signs(signs))
    }

    /// Puts a plainer byte for each word, everywhere at once, if a difference remains. So names are shortened together,
    /// and to one byte, as DEF turns an empty one away; at last to one of their group, so that they still share it.
    fn plainer_words(&mut self, memory: &mut Memory) {
        let table = self.script.checked().clone().unwrap_or(Table::STANDARD);
        let pieces = pieces(&self.script.text, &table);
        let words: BTreeSet<Vec<u8>> = pieces
            .filter(|piece| plain(&table, piece[0]))
            .map(<[u8]>::to_vec)
            .collect();
        for word in words {
            let bytes = PLAINER.iter().copied().chain(of_its_group(&word, &table));
            for byte in bytes {
                let text = with_another(&self.script.text, &table, &word, &[byte]);
                if word == [byte] || self.takes_bytes(memory, text) {
                    break;
                }
            }
        }
    }

    /// Lends no signs, or signs more like the standard ones, wherever a difference remains.
    fn simpler_signs(&mut self, memory: &mut Memory) {
        if self.takes_signs(memory, None) {
            return;
        }
        for length in [0, 255, 257] {
            self.shorter_signs(memory, length);
        }
        for &byte in SIGNS {
            self.standard_sign(memory, byte);
        }
        for (place, &standard) in Table::STANDARD.kinds().iter().enumerate() {
            self.standard_entry(memory, place, standard);
        }
        self.takes_signs(memory, None);
    }

    fn shorter_signs(&mut self, memory: &mut Memory, length: usize) {
        let signs = self.script.signs().unwrap_or_default();
        if signs.len() > length && signs.len() != 256 {
            let shorter = signs[..length].to_vec();
            self.takes_signs(memory, Some(shorter));
        }
    }

    fn standard_entry(&mut self, memory: &mut Memory, place: usize, standard: u8) {
        let mut signs = self.script.signs().unwrap_or_default().to_vec();
        if signs.get(place).is_some_and(|&entry| entry != standard) {
            signs[place] = standard;
            self.takes_signs(memory, Some(signs));
        }
    }

    /// Puts a sign on its standard byte. The byte that it had becomes what that one was, in the text as well.
    fn standard_sign(&mut self, memory: &mut Memory, byte: u8) {
        let mut signs = self.script.signs().unwrap_or_default().to_vec();
        let kind = Table::STANDARD.kind(byte);
        let Some(had) = (0..=u8::MAX)
            .zip(&signs)
            .find_map(|(had, &entry)| (entry == kind).then_some(had))
        else {
            return;
        };
        if had == byte || signs.len() != 256 {
            return;
        }
        signs.swap(usize::from(byte), usize::from(had));
        let exchanged = |&shown: &u8| match shown {
            shown if shown == byte => had,
            shown if shown == had => byte,
            shown => shown,
        };
        let text = self.script.text.iter().map(exchanged).collect();
        self.takes(memory, self.script.with_text(text).with_signs(Some(signs)));
    }
}

impl Shorten for Reduced {
    fn bytes(&self) -> &[u8] {
        &self.script.text
    }

    fn takes_bytes(&mut self, memory: &mut Memory, text: Vec<u8>) -> bool {
        self.takes(memory, self.script.with_text(text))
    }
}

fn plain(table: &Table, byte: u8) -> bool {
    table.kind(byte) == PLAIN
}

/// The bytes that are names of a word's group, by request Thirteen; a letter comes first.
fn of_its_group(word: &[u8], table: &Table) -> Vec<u8> {
    let sum = word.iter().fold(0u8, |sum, &byte| sum.wrapping_add(byte));
    let bytes = [64, 0, 128, 192].map(|first| first + sum % 64);
    bytes.into_iter().filter(|&byte| plain(table, byte)).collect()
}

/// The words of a text and the signs between them.
fn pieces<'a>(text: &'a [u8], table: &'a Table) -> impl Iterator<Item = &'a [u8]> {
    text.chunk_by(|&left, &right| plain(table, left) && plain(table, right))
}

/// The text with another word in the place of one, wherever it stands between signs.
fn with_another(text: &[u8], table: &Table, word: &[u8], other: &[u8]) -> Vec<u8> {
    let put = |piece| if piece == word { other } else { piece };
    pieces(text, table).flat_map(put).copied().collect()
}

pub fn reduce(memory: &mut Memory, script: &Script, difference: Box<Difference>) -> Reduced {
    let mut reduced = Reduced {
        script: script.clone(),
        difference,
        start: Instant::now(),
    };
    loop {
        let length = reduced.script.text.len();
        reduced.shorter(memory);
        reduced.without_pairs(memory);
        reduced.plainer_words(memory);
        if reduced.script.text.len() == length {
            break;
        }
    }
    reduced.plainer(memory);
    reduced.simpler_signs(memory);
    let script = reduced.script.clone();
    reduced.takes(memory, script);
    reduced
}
