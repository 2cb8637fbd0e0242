//! Hashes: Rust's own traits, and a fast hasher whose seed is fixed.

pub use core::hash::{BuildHasher, Hash, Hasher};
#[cfg(feature = "std")]
pub use rust_std::collections::hash_map::{DefaultHasher, RandomState};

use core::fmt;
use core::marker::PhantomData;

/// Makes each hasher as its `Default` does. (Rust's own has a `new` only since 1.85.)
pub struct BuildHasherDefault<H> {
    of: PhantomData<fn() -> H>,
}

impl<H> BuildHasherDefault<H> {
    /// The one that there is.
    #[must_use]
    pub fn new() -> BuildHasherDefault<H> {
        BuildHasherDefault { of: PhantomData }
    }
}

impl<H> Default for BuildHasherDefault<H> {
    fn default() -> BuildHasherDefault<H> {
        BuildHasherDefault::new()
    }
}

impl<H> Clone for BuildHasherDefault<H> {
    fn clone(&self) -> BuildHasherDefault<H> {
        *self
    }
}

impl<H> Copy for BuildHasherDefault<H> {}

impl<H: Default + Hasher> BuildHasher for BuildHasherDefault<H> {
    type Hasher = H;

    #[inline]
    fn build_hasher(&self) -> H {
        H::default()
    }
}

impl<H> fmt::Debug for BuildHasherDefault<H> {
    fn fmt(&self, f: &mut fmt::Formatter<'_>) -> fmt::Result {
        f.write_str("BuildHasherDefault")
    }
}

impl<H> PartialEq for BuildHasherDefault<H> {
    fn eq(&self, _other: &BuildHasherDefault<H>) -> bool {
        true
    }
}

impl<H> Eq for BuildHasherDefault<H> {}

/// A fast hasher, not a cryptographic one. Its seed is fixed, so whoever picks the keys can make them collide: for
/// such keys take another.
///
/// Each word of 8 bytes is mixed in by a product of 128 bits, whose halves are joined.
#[derive(Clone, Copy, Debug)]
pub struct FoldHasher {
    state: u64,
}

// The fractions of pi and of the golden ratio: numbers with nothing up their sleeve.
const SEED: u64 = 0x243f_6a88_85a3_08d3;
const MULTIPLIER: u64 = 0x9e37_79b9_7f4a_7c15;

/// The product with `MULTIPLIER`, its upper half of 64 bits joined to the lower one.
#[cfg(target_pointer_width = "64")]
#[inline]
fn folded(word: u64) -> u64 {
    let product = u128::from(word) * u128::from(MULTIPLIER);
    (product as u64) ^ ((product >> 64) as u64)
}

#[cfg(not(target_pointer_width = "64"))]
use folded_by_halves as folded;

/// What `folded` gives, from products of 64 bits. Where pointers have 32 bits, as in WebAssembly, a product of 128 bits is a call that
/// gives it through memory. The sums stay below 2^64.
#[cfg(any(test, not(target_pointer_width = "64")))]
#[inline]
fn folded_by_halves(word: u64) -> u64 {
    const HALF: u64 = 0xffff_ffff;
    let (low, high) = (word & HALF, word >> 32);
    let (by_low, by_high) = (MULTIPLIER & HALF, MULTIPLIER >> 32);
    let first = high * by_low + ((low * by_low) >> 32);
    let second = low * by_high + (first & HALF);
    word.wrapping_mul(MULTIPLIER) ^ (high * by_high + (first >> 32) + (second >> 32))
}

impl Default for FoldHasher {
    #[inline]
    fn default() -> FoldHasher {
        FoldHasher { state: SEED }
    }
}

impl FoldHasher {
    #[inline]
    fn mix(&mut self, word: u64) {
        self.state = folded(self.state ^ word);
    }
}

impl Hasher for FoldHasher {
    #[inline]
    fn finish(&self) -> u64 {
        self.state
    }

    #[inline]
    fn write(&mut self, bytes: &[u8]) {
        for part in bytes.chunks(8) {
            let mut word = [0; 8];
            word[..part.len()].copy_from_slice(part);
            self.mix(u64::from_le_bytes(word));
        }
        self.mix(!(bytes.len() as u64));
    }

    #[inline]
    fn write_u8(&mut self, number: u8) {
        self.mix(u64::from(number));
    }

    #[inline]
    fn write_u16(&mut self, number: u16) {
        self.mix(u64::from(number));
    }

    #[inline]
    fn write_u32(&mut self, number: u32) {
        self.mix(u64::from(number));
    }

    #[inline]
    fn write_u64(&mut self, number: u64) {
        self.mix(number);
    }

    #[inline]
    fn write_usize(&mut self, number: usize) {
        self.mix(number as u64);
    }
}

#[cfg(test)]
mod tests {
    use super::{folded, folded_by_halves};

    // Words and what they fold to, by Python's whole numbers of any length.
    const ROWS: [(u64, u64); 7] = [
        (0, 0),
        (1, 0x9e37_79b9_7f4a_7c15),
        (0x1_0000_0000, 0x7f4a_7c15_9e37_79b9),
        (0xffff_ffff, 0xe113_025b_1e82_fa53),
        (0xffff_ffff_ffff_ffff, 0xffff_ffff_ffff_ffff),
        (0x243f_6a88_85a3_08d3, 0xe184_8576_4ba0_3644),
        (0x8000_0000_0000_0001, 0x512c_c565_c0ef_421e),
    ];

    #[test]
    fn folded_either_way() {
        for (word, hash) in ROWS {
            ::core::assert_eq!((folded(word), folded_by_halves(word)), (hash, hash));
        }
    }
}
