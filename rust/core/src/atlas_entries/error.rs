// Erased from crates/atlas_entries/src/error.rt by rust/erase: don't edit.
//! Why a cache refuses a call.

use wollemigo_support::alloc::{AllocError, AllocFailed};

/// Why a call was refused.
#[derive(Clone, Copy, Debug, PartialEq, Eq)]
pub enum CacheError {
    /// A request for memory was refused.
    Memory,
    /// All 4,294,967,295 numbers of entries are in use.
    Numbers,
    /// The slots of a page's atlas don't suffice. No entry is evicted for it, in no later frame either, and another page with
    /// room isn't tried: `remove`, `trim` and `clear` help.
    Slots,
    /// The key is held with another size.
    OtherSize,
}

impl core::fmt::Display for CacheError {
    fn fmt(&self, f: &mut core::fmt::Formatter<'_>) -> core::fmt::Result {
        match self {
            CacheError::Memory => f.write_str("no memory"),
            CacheError::Numbers => f.write_str("no number left for an entry"),
            CacheError::Slots => f.write_str("no slot left on a page"),
            CacheError::OtherSize => f.write_str("the key is held with another size"),
        }
    }
}

impl wollemigo_support::error::Error for CacheError {}

impl From<AllocError> for CacheError {
    /// `Memory`, whatever was asked for.
    #[inline]
    fn from(_error: AllocError) -> CacheError {
        CacheError::Memory
    }
}

impl<T> From<AllocFailed<T>> for CacheError {
    /// `Memory`, whatever was asked for.
    #[inline]
    fn from(_failed: AllocFailed<T>) -> CacheError {
        CacheError::Memory
    }
}
