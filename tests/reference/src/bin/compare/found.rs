//! A difference that was found: in a run of a script, or in a call for keys.
use crate::check::Difference;
use crate::keys::Keys;
use crate::memory::Memory;
use crate::recording::CallDifference;
use crate::reduce;
use crate::reduce_keys;
use crate::script::Script;
use crate::tell;

pub enum Found {
    Run(Script, Box<Difference>),
    Call(Keys, Box<CallDifference>),
}

impl Found {
    pub fn tell(&self) {
        match self {
            Found::Run(script, difference) => tell::difference(script, difference),
            Found::Call(keys, difference) => tell::call(keys, difference),
        }
    }

    /// One as short and plain as can be.
    pub fn reduced(self, memory: &mut Memory) -> Found {
        match self {
            Found::Run(script, difference) => {
                let reduced = reduce::reduce(memory, &script, difference);
                Found::Run(reduced.script, reduced.difference)
            }
            Found::Call(keys, difference) => {
                let reduced = reduce_keys::reduce(memory, keys, difference);
                Found::Call(reduced.keys, reduced.difference)
            }
        }
    }
}
