//! What the runs of numbers hold after a call that asks where each byte came from.
use crate::check::hold;
use crate::memory::Memory;
use reference::ends::End;
use reference::scanning::Lent;

/// Of the first places of both runs, those with a byte written; as far as lent.
pub fn first(memory: &Memory, lent: &Lent, written: usize) -> [Vec<u32>; 2] {
    if lent.numbers.is_none() {
        return [Vec::new(), Vec::new()];
    }
    [&memory.origins, &memory.rules].map(|area| area.lent()[..area.lent().len().min(written)].to_vec())
}

/// "For each output byte" an origin and a rule: those of an end.
pub fn against(memory: &Memory, lent: &Lent, end: &End, whose: &str) -> Result<(), String> {
    if lent.numbers.is_none() {
        return Ok(());
    }
    let same = memory.origins.lent().starts_with(&end.origins);
    hold(same, &format!("the origins are not those of {whose}"))?;
    let same = memory.rules.lent().starts_with(&end.rules);
    hold(same, &format!("the rules are not those of {whose}"))
}

/// "Places past the written count are untouched", and all of them after a refusal, which writes nothing.
pub fn left(memory: &Memory, lent: &Lent, written: usize) -> Result<(), String> {
    if lent.numbers.is_none() {
        return Ok(());
    }
    hold(memory.origins.guards_kept(), "memory beside the origins is changed")?;
    hold(memory.rules.guards_kept(), "memory beside the rules is changed")?;
    hold(
        memory.origins.kept_from(written),
        "the origins are changed past the bytes written",
    )?;
    hold(
        memory.rules.kept_from(written),
        "the rules are changed past the bytes written",
    )
}
