// Erased from crates/atlas_model/src/options.rt by rust/erase: don't edit.
//! Options of an allocator.

use crate::atlas_model::geometry::Size;

/// How an allocator rounds requests, and which are small, medium and large.
#[derive(Clone, Copy, Debug, PartialEq, Eq, Hash)]
pub struct AllocatorOptions {
    /// Sides of requests are rounded up to multiples of these, in pixels; both are above 0.
    pub alignment: Size,
    /// A size is small if both its sides are below this, in pixels; at most `large_size_threshold`.
    pub small_size_threshold: i32,
    /// A size is large if one of its sides is at least this, in pixels.
    pub large_size_threshold: i32,
}

/// Alignment (1, 1), thresholds 32 and 256.
pub const DEFAULT_OPTIONS: AllocatorOptions = AllocatorOptions {
    alignment: Size {
        width: 1,
        height: 1,
    },
    small_size_threshold: 32,
    large_size_threshold: 256,
};

impl Default for AllocatorOptions {
    #[inline]
    fn default() -> Self {
        DEFAULT_OPTIONS
    }
}

impl AllocatorOptions {
    /// Whether both alignments are above 0 and the small threshold is at most the large one. Negative thresholds are
    /// allowed.
    #[inline]
    #[must_use]
    pub fn is_valid(&self) -> bool {
        self.alignment.width > 0
            && self.alignment.height > 0
            && self.small_size_threshold <= self.large_size_threshold
    }
}
