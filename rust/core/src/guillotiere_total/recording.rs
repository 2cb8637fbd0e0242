// Erased from crates/guillotiere_total/src/recording.rt by rust/erase: don't edit.
//! Calls of a recording allocator and of a recorder.

use crate::guillotiere::{AllocatorOptions, AtlasError, ChangeList, Size};
use crate::guillotiere_recording::{Recorder, RecordingAllocator, RecordingError};
use crate::guillotiere_total::conditions::{check_size, check_start};
use crate::guillotiere_total::error::CallError;
use wollemigo_support::alloc::Allocator;

// A refusal; no call here lacks names.
#[inline]
fn refused(error: RecordingError) -> CallError {
    CallError::Refused(match error {
        RecordingError::Memory => AtlasError::Memory,
        RecordingError::Slots | RecordingError::Names => AtlasError::Slots,
        RecordingError::NotLive => AtlasError::NotLive,
    })
}

/// `RecordingAllocator::with_options` at any size and with any options. `EmptySize`, `Alignment` or `Thresholds`; or
/// `Memory` if memory is refused.
#[inline]
pub fn with_options<A: Allocator + Copy>(
    alloc: A,
    size: Size,
    options: &AllocatorOptions,
) -> Result<RecordingAllocator<A>, CallError> {
    check_start(size, options)?;
    match RecordingAllocator::with_options(alloc, size, options) {
        Ok(session) => Ok(session),
        Err(error) => Err(refused(error)),
    }
}

/// `RecordingAllocator::grow` to any size. `Shrinks`; or `Slots` or `Memory`, as `grow` says.
#[inline]
pub fn grow<A: Allocator + Copy>(
    session: &mut RecordingAllocator<A>,
    new_size: Size,
) -> Result<(), CallError> {
    if !session.can_grow_to(new_size) {
        return Err(CallError::Shrinks);
    }
    match session.grow(new_size) {
        Ok(()) => Ok(()),
        Err(error) => Err(refused(error)),
    }
}

/// `RecordingAllocator::resize_and_rearrange` to any size. `EmptySize`; or `Slots` or `Memory`, as
/// `resize_and_rearrange` says.
#[inline]
pub fn resize_and_rearrange<A: Allocator + Copy>(
    session: &mut RecordingAllocator<A>,
    new_size: Size,
) -> Result<ChangeList<A>, CallError> {
    check_size(new_size)?;
    match session.resize_and_rearrange(new_size) {
        Ok(list) => Ok(list),
        Err(error) => Err(refused(error)),
    }
}

/// `Recorder::new` at any size and with any options. `EmptySize`, `Alignment` or `Thresholds`. Takes no memory.
#[inline]
pub fn recorder<A: Allocator + Copy>(
    alloc: A,
    size: Size,
    options: &AllocatorOptions,
) -> Result<Recorder<A>, CallError> {
    check_start(size, options)?;
    Ok(Recorder::new(alloc, size, options))
}
