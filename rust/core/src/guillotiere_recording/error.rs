// Erased from crates/guillotiere_recording/src/error.rt by rust/erase: don't edit.
//! What a recording allocator refuses.

use crate::guillotiere::AtlasError;
use wollemigo_support::alloc::{AllocError, AllocFailed};

/// Why a call of a recording allocator was refused. After a refusal atlas, names and events are as before, and nothing
/// was recorded.
#[derive(Clone, Copy, Debug, PartialEq, Eq)]
pub enum RecordingError {
    /// A request for memory was refused.
    Memory,
    /// More slots would be used than an atlas may use.
    Slots,
    /// The id is not the name of a box that is allocated now.
    NotLive,
    /// All names have been given out.
    Names,
}

impl core::fmt::Display for RecordingError {
    fn fmt(&self, f: &mut core::fmt::Formatter<'_>) -> core::fmt::Result {
        match self {
            RecordingError::Memory => f.write_str("no memory"),
            RecordingError::Slots => f.write_str("no slot left"),
            RecordingError::NotLive => f.write_str("id is not live"),
            RecordingError::Names => f.write_str("no name left"),
        }
    }
}

impl wollemigo_support::error::Error for RecordingError {}

impl From<AtlasError> for RecordingError {
    #[inline]
    fn from(error: AtlasError) -> RecordingError {
        match error {
            AtlasError::Memory => RecordingError::Memory,
            AtlasError::Slots => RecordingError::Slots,
            AtlasError::NotLive => RecordingError::NotLive,
        }
    }
}

impl From<AllocError> for RecordingError {
    #[inline]
    fn from(_error: AllocError) -> RecordingError {
        RecordingError::Memory
    }
}

impl<T> From<AllocFailed<T>> for RecordingError {
    #[inline]
    fn from(_error: AllocFailed<T>) -> RecordingError {
        RecordingError::Memory
    }
}
