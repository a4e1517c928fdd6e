//! The ways of making bytes shorter and plainer while a difference remains, for scripts and for keys.
use crate::memory::Memory;
use std::time::Duration;

/// Only bytes as few as this are worth trying all stretches and all pairs of.
const SHORT: usize = 100;
/// Bytes that are put for others, the plainest first.
pub const PLAINER: &[u8] = b"a1k";
/// Many bytes are not reduced to the fewest, where each try takes milliseconds.
pub const TIME: Duration = Duration::from_secs(60);

pub trait Shorten {
    fn bytes(&self) -> &[u8];

    /// Takes other bytes if they show a difference too.
    fn takes_bytes(&mut self, memory: &mut Memory, bytes: Vec<u8>) -> bool;

    fn short(&self) -> bool {
        self.bytes().len() <= SHORT
    }

    /// Leaves out pieces of every size, of few bytes, and else of ever smaller ones.
    fn shorter(&mut self, memory: &mut Memory) {
        let mut size = self.bytes().len();
        while size > 0 {
            self.without_pieces(memory, size);
            size = if self.short() { size - 1 } else { size / 2 };
        }
    }

    /// Leaves out pieces of one size, wherever a difference remains.
    fn without_pieces(&mut self, memory: &mut Memory, size: usize) {
        let mut place = 0;
        while place < self.bytes().len() {
            let end = (place + size).min(self.bytes().len());
            let shorter = [&self.bytes()[..place], &self.bytes()[end..]].concat();
            if !self.takes_bytes(memory, shorter) {
                place += if self.short() { 1 } else { size };
            }
        }
    }

    /// Leaves out two bytes at a time, as a pair of quotes.
    fn without_pairs(&mut self, memory: &mut Memory) {
        let mut first = 0;
        while first < self.bytes().len() && self.short() {
            let shorter = (first + 1..self.bytes().len()).find(|&second| {
                let mut bytes = self.bytes().to_vec();
                bytes.remove(second);
                bytes.remove(first);
                self.takes_bytes(memory, bytes)
            });
            first += usize::from(shorter.is_none());
        }
    }

    /// Puts a plainer byte in each place where a difference remains.
    fn plainer(&mut self, memory: &mut Memory) {
        for place in 0..self.bytes().len() {
            for &byte in PLAINER {
                let mut bytes = self.bytes().to_vec();
                if std::mem::replace(&mut bytes[place], byte) == byte || self.takes_bytes(memory, bytes) {
                    break;
                }
            }
        }
    }
}
