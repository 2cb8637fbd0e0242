// Erased from crates/atlas_sheet/src/error.rt by rust/erase: don't edit.
//! What stops a sheet from being made.

use crate::guillotiere::AtlasError;
use wollemigo_support::alloc::{AllocError, AllocFailed};

/// Why there is no sheet.
#[derive(Clone, Copy, Debug, PartialEq, Eq)]
pub enum SheetError {
    /// A request for memory was refused.
    Memory,
    /// A side of the sheet, or the least that is allowed, is below 1.
    EmptySheet,
    /// No sheet is allowed: the greatest side is below the least.
    EmptyRange,
    /// A side of the alignment is below 1.
    EmptyAlignment,
    /// The sprite with this number, counted from 0, has a side below 1.
    EmptySprite(usize),
    /// A side of the sprite with this number, counted from 0, exceeds 2147483647 pixels with the padding at both its ends.
    GreatSprite(usize),
}

impl core::fmt::Display for SheetError {
    fn fmt(&self, f: &mut core::fmt::Formatter<'_>) -> core::fmt::Result {
        match self {
            SheetError::Memory => f.write_str("no memory"),
            SheetError::EmptySheet => f.write_str("a side of the sheet is below 1"),
            SheetError::EmptyRange => f.write_str("the greatest side is below the least"),
            SheetError::EmptyAlignment => f.write_str("a side of the alignment is below 1"),
            SheetError::EmptySprite(value) => write!(f, "sprite {} has a side below 1", value),
            SheetError::GreatSprite(value) => write!(f, "sprite {} is too large", value),
        }
    }
}

impl wollemigo_support::error::Error for SheetError {}

impl From<AtlasError> for SheetError {
    /// `Memory`, which is all that a simple allocator refuses.
    #[inline]
    fn from(_error: AtlasError) -> SheetError {
        SheetError::Memory
    }
}

impl From<AllocError> for SheetError {
    /// `Memory`, whatever was asked for.
    #[inline]
    fn from(_error: AllocError) -> SheetError {
        SheetError::Memory
    }
}

impl<T> From<AllocFailed<T>> for SheetError {
    /// `Memory`; what couldn't be stored is dropped.
    #[inline]
    fn from(_error: AllocFailed<T>) -> SheetError {
        SheetError::Memory
    }
}
