// Erased from crates/atlas_sheet/src/random.rt by rust/erase: don't edit.
//! A row of numbers that look random, the same on every machine.

/// A row of numbers that look random: each follows from the one before it by a product and a sum.
#[derive(Clone, Copy, Debug, PartialEq, Eq)]
pub struct Random {
    state: u64,
}

impl Random {
    /// The row that begins at this seed.
    #[inline]
    #[must_use]
    pub fn new(seed: u64) -> Random {
        Random { state: seed }
    }

    /// The next number, below a bound.
    #[inline]
    pub fn below(&mut self, bound: usize) -> usize {
        self.state = self
            .state
            .wrapping_mul(6364136223846793005)
            .wrapping_add(1442695040888963407);
        (self.state >> 33) as usize % bound
    }
}
