//! Numbers that look random and are the same in every run.

/// A xorshift generator.
pub struct Random {
    state: u64,
}

impl Random {
    /// The seed is not 0.
    pub fn new(seed: u64) -> Random {
        Random { state: seed }
    }

    /// A number below `limit`. That small ones are a little more frequent does no harm here.
    pub fn below(&mut self, limit: usize) -> usize {
        self.state ^= self.state << 13;
        self.state ^= self.state >> 7;
        self.state ^= self.state << 17;
        (self.state >> 16) as usize % limit
    }
}
