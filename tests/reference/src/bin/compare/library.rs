//! The library under test.
use crate::memory::Memory;
use reference::ends::Report;

#[link(name = "expander", kind = "static")]
extern "C" {
    fn gpm_expand(
        text: *const u8,
        text_length: usize,
        cells: *mut u32,
        cells_length: usize,
        output: *mut u8,
        output_length: usize,
        allowance: u64,
    ) -> Report;

    fn gpm_expand_signs(
        signs: *const u8,
        signs_length: usize,
        text: *const u8,
        text_length: usize,
        cells: *mut u32,
        cells_length: usize,
        output: *mut u8,
        output_length: usize,
        allowance: u64,
    ) -> Report;

    fn gpm_expand_origins(
        signs: *const u8,
        signs_length: usize,
        text: *const u8,
        text_length: usize,
        cells: *mut u32,
        cells_length: usize,
        output: *mut u8,
        output_length: usize,
        origins: *mut u32,
        origins_length: usize,
        rules: *mut u32,
        rules_length: usize,
        allowance: u64,
    ) -> Report;

    fn gpm_script(wanted: *const u8, wanted_length: usize, output: *mut u8, output_length: usize) -> u64;
}

/// The call for the keys that are lent now, as the text, and for the output; the number that comes back.
pub fn script(memory: &mut Memory) -> u64 {
    let (wanted_length, output_length) = (memory.text.lent().len(), memory.output.lent().len());
    let (wanted, output) = (memory.text.pointer(), memory.output.pointer());
    // Sound: both pointers are not null and good for their lengths, the areas are apart, and nothing else refers to
    // them during the call.
    unsafe { gpm_script(wanted, wanted_length, output, output_length) }
}

/// The run with what is lent now, the runs of numbers too.
pub fn expand_origins(memory: &mut Memory, allowance: u64) -> Report {
    let (signs_length, text_length) = (memory.signs.lent().len(), memory.text.lent().len());
    let (cells_length, output_length) = (memory.cells.lent().len(), memory.output.lent().len());
    let (origins_length, rules_length) = (memory.origins.lent().len(), memory.rules.lent().len());
    // Sound: each pointer is aligned, not null and good for its length, the six areas are apart, and nothing else
    // refers to them during the call.
    unsafe {
        gpm_expand_origins(
            memory.signs.pointer(),
            signs_length,
            memory.text.pointer(),
            text_length,
            memory.cells.pointer(),
            cells_length,
            memory.output.pointer(),
            output_length,
            memory.origins.pointer(),
            origins_length,
            memory.rules.pointer(),
            rules_length,
            allowance,
        )
    }
}

/// The run with what is lent now, under the signs lent or under the standard ones.
pub fn expand(memory: &mut Memory, signs_lent: bool, allowance: u64) -> Report {
    let signs_length = memory.signs.lent().len();
    let text_length = memory.text.lent().len();
    let cells_length = memory.cells.lent().len();
    let output_length = memory.output.lent().len();
    let (signs, text) = (memory.signs.pointer(), memory.text.pointer());
    let (cells, output) = (memory.cells.pointer(), memory.output.pointer());
    // Sound, both: each pointer is aligned, not null and good for its length, the four areas are apart, and nothing
    // else refers to them during the call.
    if signs_lent {
        unsafe {
            gpm_expand_signs(
                signs,
                signs_length,
                text,
                text_length,
                cells,
                cells_length,
                output,
                output_length,
                allowance,
            )
        }
    } else {
        unsafe { gpm_expand(text, text_length, cells, cells_length, output, output_length, allowance) }
    }
}
