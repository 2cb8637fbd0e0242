// Erased from crates/atlas_model/src/error.rt by rust/erase: don't edit.
//! What an allocator refuses.

use wollemigo_support::alloc::{AllocError, AllocFailed};

/// Why a call of an allocator was refused. After a refusal all that a caller can see is as before the call.
#[derive(Clone, Copy, Debug, PartialEq, Eq)]
pub enum AtlasError {
    /// A request for memory was refused.
    Memory,
    /// More slots would be used than the atlas's limit allows.
    Slots,
    /// The id is not that of a box that is allocated now.
    NotLive,
}

impl core::fmt::Display for AtlasError {
    fn fmt(&self, f: &mut core::fmt::Formatter<'_>) -> core::fmt::Result {
        match self {
            AtlasError::Memory => f.write_str("no memory"),
            AtlasError::Slots => f.write_str("no slot left"),
            AtlasError::NotLive => f.write_str("id is not live"),
        }
    }
}

impl wollemigo_support::error::Error for AtlasError {}

impl From<AllocError> for AtlasError {
    /// `Memory`, whatever was asked for.
    #[inline]
    fn from(_error: AllocError) -> AtlasError {
        AtlasError::Memory
    }
}

impl<T> From<AllocFailed<T>> for AtlasError {
    /// `Memory`; what couldn't be stored is dropped.
    #[inline]
    fn from(_error: AllocFailed<T>) -> AtlasError {
        AtlasError::Memory
    }
}
