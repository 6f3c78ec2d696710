//! Made-up numbers, the same in every run.

/// What makes them.
pub struct Random {
    state: u64,
}

impl Random {
    pub fn new() -> Random {
        Random { state: 1 }
    }

    /// The next number, of 31 bits.
    pub fn number(&mut self) -> u32 {
        self.state = self.state.wrapping_mul(6_364_136_223_846_793_005).wrapping_add(1);
        (self.state >> 33) as u32
    }

    /// The next number below an end.
    pub fn below(&mut self, end: u32) -> u32 {
        self.number() % end
    }
}
