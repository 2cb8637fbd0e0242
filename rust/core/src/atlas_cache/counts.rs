// Erased from crates/atlas_cache/src/counts.rt by rust/erase: don't edit.
//! How a cache was used.

/// How often a cache had what it was asked for. A count that reaches 2^64 - 1 stays there.
#[derive(Clone, Copy, Debug, PartialEq, Eq)]
pub struct Counts {
    /// The calls of `get` that found their key, and those of `insert` that answered `Held`.
    pub hits: u64,
    /// The calls of `get` that didn't find theirs.
    pub misses: u64,
    /// The entries that were evicted: by an insertion, a trim, the end of a batch or a repacking.
    pub evictions: u64,
    /// Of those that insertions evicted the ones that fragmentation cost: before the insertion some page had as much free area as was
    /// asked for, with the padding, in parts that had no room. What an alignment adds isn't counted in.
    pub forced: u64,
}

/// No calls yet.
pub const NO_COUNTS: Counts = Counts {
    hits: 0,
    misses: 0,
    evictions: 0,
    forced: 0,
};

/// One more, up to 2^64 - 1.
#[inline]
#[must_use]
pub fn count(number: u64) -> u64 {
    number.saturating_add(1)
}
