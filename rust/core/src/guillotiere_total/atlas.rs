// Erased from crates/guillotiere_total/src/atlas.rt by rust/erase: don't edit.
//! Calls of an atlas.

use crate::guillotiere::{AllocatorOptions, AtlasAllocator, ChangeList, Size};
use crate::guillotiere_total::conditions::{check_limited_start, check_size, check_start};
use crate::guillotiere_total::error::CallError;
use wollemigo_support::alloc::Allocator;

/// `AtlasAllocator::new` at any size. `EmptySize`; or `Memory` if memory is refused.
#[inline]
pub fn new<A: Allocator + Copy>(alloc: A, size: Size) -> Result<AtlasAllocator<A>, CallError> {
    check_size(size)?;
    Ok(AtlasAllocator::new(alloc, size)?)
}

/// `AtlasAllocator::with_options` at any size and with any options. `EmptySize`, `Alignment` or `Thresholds`; or
/// `Memory` if memory is refused.
#[inline]
pub fn with_options<A: Allocator + Copy>(
    alloc: A,
    size: Size,
    options: &AllocatorOptions,
) -> Result<AtlasAllocator<A>, CallError> {
    check_start(size, options)?;
    Ok(AtlasAllocator::with_options(alloc, size, options)?)
}

/// `AtlasAllocator::with_slot_limit` at any size, with any options and any limit. `EmptySize`, `Alignment`,
/// `Thresholds` or `SlotLimit`; or `Memory` if memory is refused.
#[inline]
pub fn with_slot_limit<A: Allocator + Copy>(
    alloc: A,
    size: Size,
    options: &AllocatorOptions,
    limit: u32,
) -> Result<AtlasAllocator<A>, CallError> {
    check_limited_start(size, options, limit)?;
    Ok(AtlasAllocator::with_slot_limit(
        alloc, size, options, limit,
    )?)
}

/// `AtlasAllocator::grow` to any size. `Shrinks`; or `Slots` or `Memory`, as `grow` says.
#[inline]
pub fn grow<A: Allocator + Copy>(
    atlas: &mut AtlasAllocator<A>,
    new_size: Size,
) -> Result<(), CallError> {
    if !atlas.can_grow_to(new_size) {
        return Err(CallError::Shrinks);
    }
    atlas.grow(new_size)?;
    Ok(())
}

/// `AtlasAllocator::resize_and_rearrange` to any size. `EmptySize`; or `Slots` or `Memory`, as
/// `resize_and_rearrange` says.
#[inline]
pub fn resize_and_rearrange<A: Allocator + Copy>(
    atlas: &mut AtlasAllocator<A>,
    new_size: Size,
) -> Result<ChangeList<A>, CallError> {
    check_size(new_size)?;
    Ok(atlas.resize_and_rearrange(new_size)?)
}

/// `AtlasAllocator::reset` to any size and with any options. `EmptySize`, `Alignment` or `Thresholds`.
#[inline]
pub fn reset<A: Allocator + Copy>(
    atlas: &mut AtlasAllocator<A>,
    size: Size,
    options: &AllocatorOptions,
) -> Result<(), CallError> {
    check_start(size, options)?;
    atlas.reset(size, options)?;
    Ok(())
}
