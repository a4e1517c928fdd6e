//! The product, called as C calls it.
use reference::ends::Report;
use reference::scanning::Lent;
use reference::signs::Table;

#[link(name = "expander", kind = "static")]
extern "C" {
    fn gpm_expand(
        text: *const u8,
        text_length: usize,
        cells: *mut u32,
        cells_length: usize,
        output: *mut u8,
        output_length: usize,
        allowance: u64,
    ) -> Report;

    fn gpm_expand_signs(
        signs: *const u8,
        signs_length: usize,
        text: *const u8,
        text_length: usize,
        cells: *mut u32,
        cells_length: usize,
        output: *mut u8,
        output_length: usize,
        allowance: u64,
    ) -> Report;

    fn gpm_expand_origins(
        signs: *const u8,
        signs_length: usize,
        text: *const u8,
        text_length: usize,
        cells: *mut u32,
        cells_length: usize,
        output: *mut u8,
        output_length: usize,
        origins: *mut u32,
        origins_length: usize,
        rules: *mut u32,
        rules_length: usize,
        allowance: u64,
    ) -> Report;

    fn gpm_script(wanted: *const u8, wanted_length: usize, output: *mut u8, output_length: usize) -> u64;
}

/// What the program `gpm` lends, and both runs of numbers, for one run after another.
pub struct Memory {
    cells: Vec<u32>,
    output: Vec<u8>,
    origins: Vec<u32>,
    rules: Vec<u32>,
}

impl Memory {
    pub fn new() -> Memory {
        Memory {
            cells: vec![0; Lent::PROGRAM.cells],
            output: vec![0; Lent::PROGRAM.output],
            origins: vec![0; Lent::PROGRAM.output],
            rules: vec![0; Lent::PROGRAM.output],
        }
    }

    /// Wipes what the last run wrote, so that a run that writes nothing cannot pass for a right one.
    pub fn wipe(&mut self) {
        self.output.fill(0);
    }

    pub fn expand(&mut self, text: &[u8]) -> Report {
        // Safety: each pointer is that of a live slice and goes with its length; only cells and output are written.
        unsafe {
            gpm_expand(
                text.as_ptr(),
                text.len(),
                self.cells.as_mut_ptr(),
                self.cells.len(),
                self.output.as_mut_ptr(),
                self.output.len(),
                Lent::PROGRAM.allowance,
            )
        }
    }

    /// The same with the standard signs lent, which are checked.
    pub fn expand_signs(&mut self, text: &[u8]) -> Report {
        let signs = Table::STANDARD;
        // Safety: as above; the signs are a live slice too.
        unsafe {
            gpm_expand_signs(
                signs.kinds().as_ptr(),
                signs.kinds().len(),
                text.as_ptr(),
                text.len(),
                self.cells.as_mut_ptr(),
                self.cells.len(),
                self.output.as_mut_ptr(),
                self.output.len(),
                Lent::PROGRAM.allowance,
            )
        }
    }

    /// The same with the origins of what is written.
    pub fn expand_origins(&mut self, text: &[u8]) -> Report {
        let signs = Table::STANDARD;
        // Safety: as above; the runs of numbers are live slices too, and are written.
        unsafe {
            gpm_expand_origins(
                signs.kinds().as_ptr(),
                signs.kinds().len(),
                text.as_ptr(),
                text.len(),
                self.cells.as_mut_ptr(),
                self.cells.len(),
                self.output.as_mut_ptr(),
                self.output.len(),
                self.origins.as_mut_ptr(),
                self.origins.len(),
                self.rules.as_mut_ptr(),
                self.rules.len(),
                Lent::PROGRAM.allowance,
            )
        }
    }

    /// A script for given keys, in the output.
    pub fn script(&mut self, wanted: &[u8]) -> u64 {
        // Safety: as above; only the output is written.
        unsafe {
            gpm_script(
                wanted.as_ptr(),
                wanted.len(),
                self.output.as_mut_ptr(),
                self.output.len(),
            )
        }
    }

    /// What such a call wrote, by its answer.
    pub fn scripted(&self, answer: u64) -> &[u8] {
        assert_eq!(answer >> 32, 0, "the outcome of a call for keys");
        &self.output[..answer as u32 as usize]
    }

    pub fn written(&self, report: &Report) -> &[u8] {
        &self.output[..report.written as usize]
    }
}
