// Erased from crates/guillotiere_total/src/conditions.rt by rust/erase: don't edit.
//! What calls ask, tested one after another.

use crate::guillotiere::{AllocatorOptions, Size, MOST_SLOTS};
use crate::guillotiere_total::error::CallError;

// That a size isn't empty.
#[inline]
pub(crate) fn check_size(size: Size) -> Result<(), CallError> {
    if !size.is_positive() {
        return Err(CallError::EmptySize);
    }
    Ok(())
}

// That a size isn't empty, and that options are valid.
#[inline]
pub(crate) fn check_start(size: Size, options: &AllocatorOptions) -> Result<(), CallError> {
    check_size(size)?;
    if !options.alignment.is_positive() {
        return Err(CallError::Alignment);
    }
    if options.small_size_threshold > options.large_size_threshold {
        return Err(CallError::Thresholds);
    }
    Ok(())
}

// That a size isn't empty, that options are valid, and that a limit is one that an atlas may have.
#[inline]
pub(crate) fn check_limited_start(
    size: Size,
    options: &AllocatorOptions,
    limit: u32,
) -> Result<(), CallError> {
    check_start(size, options)?;
    if limit < 1 || MOST_SLOTS < limit {
        return Err(CallError::SlotLimit);
    }
    Ok(())
}
