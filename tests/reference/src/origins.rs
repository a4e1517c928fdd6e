//! Document 02's request Eight: where each byte of the output came from.

/// "The second holds the rule that wrote it: 1 copied from the text, 2 copied from a body, 3 fetched by `~`, 4 given by
/// VAL, 5 given by another built-in."
#[derive(Clone, Copy, Debug, PartialEq, Eq)]
pub enum Rule {
    FromText = 1,
    FromBody = 2,
    Fetched = 3,
    GivenByVal = 4,
    GivenByBuiltIn = 5,
}

/// "Beside the output the caller lends two runs of 32-bit numbers": how long they are.
#[derive(Clone, Copy, Debug, PartialEq, Eq)]
pub struct Numbers {
    pub origins: usize,
    pub rules: usize,
}

impl Numbers {
    /// "35 where either run of numbers is shorter than the output lent".
    pub fn too_short(&self, output: usize) -> bool {
        self.origins < output || self.rules < output
    }
}
