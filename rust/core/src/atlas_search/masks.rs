// Erased from crates/atlas_search/src/masks.rt by rust/erase: don't edit.
//! Sets of numbers below 64, a bit for each.

/// A set of numbers below 64.
#[derive(Clone, Copy, Debug, PartialEq, Eq)]
pub struct Mask {
    pub bits: u64,
}

impl Mask {
    /// The set of no number.
    #[inline]
    #[must_use]
    pub fn none() -> Mask {
        Mask { bits: 0 }
    }

    /// Whether there is no number in the set.
    #[inline]
    #[must_use]
    pub fn is_empty(self) -> bool {
        self.bits == 0
    }

    /// The set with a number.
    #[inline]
    #[must_use]
    pub fn with(self, k: usize) -> Mask {
        Mask {
            bits: self.bits | 1 << k,
        }
    }

    /// The set without a number.
    #[inline]
    #[must_use]
    pub fn without(self, k: usize) -> Mask {
        Mask {
            bits: self.bits & !(1 << k),
        }
    }

    /// The numbers of the set from one on.
    #[inline]
    #[must_use]
    pub fn from(self, k: usize) -> Mask {
        Mask {
            bits: self.bits >> k << k,
        }
    }

    /// The numbers of the set below one.
    #[inline]
    #[must_use]
    pub fn below(self, k: usize) -> Mask {
        Mask {
            bits: self.bits & ((1 << k) - 1),
        }
    }

    /// The numbers of one of two sets.
    #[inline]
    #[must_use]
    pub fn or(self, other: Mask) -> Mask {
        Mask {
            bits: self.bits | other.bits,
        }
    }

    /// The least number of the set, and 64 if there is none.
    #[inline]
    #[must_use]
    pub fn first(self) -> usize {
        self.bits.trailing_zeros() as usize
    }

    /// Takes the least number out of the set; None if there is none.
    #[inline]
    pub fn take_first(&mut self) -> Option<usize> {
        if self.bits == 0 {
            return None;
        }
        let first = self.bits.trailing_zeros();
        self.bits &= self.bits - 1;
        Some(first as usize)
    }
}
