// Erased from crates/guillotiere_total/src/simple.rt by rust/erase: don't edit.
//! Calls of a simple allocator.

use crate::guillotiere::{AllocatorOptions, SimpleAtlasAllocator, Size};
use crate::guillotiere_total::conditions::{check_size, check_start};
use crate::guillotiere_total::error::CallError;
use wollemigo_support::alloc::Allocator;

/// `SimpleAtlasAllocator::new` at any size. `EmptySize`; or `Memory` if memory is refused.
#[inline]
pub fn new<A: Allocator + Copy>(
    alloc: A,
    size: Size,
) -> Result<SimpleAtlasAllocator<A>, CallError> {
    check_size(size)?;
    Ok(SimpleAtlasAllocator::new(alloc, size)?)
}

/// `SimpleAtlasAllocator::with_options` at any size and with any options. `EmptySize`, `Alignment` or `Thresholds`; or
/// `Memory` if memory is refused.
#[inline]
pub fn with_options<A: Allocator + Copy>(
    alloc: A,
    size: Size,
    options: &AllocatorOptions,
) -> Result<SimpleAtlasAllocator<A>, CallError> {
    check_start(size, options)?;
    Ok(SimpleAtlasAllocator::with_options(alloc, size, options)?)
}

/// `SimpleAtlasAllocator::grow` to any size. `Shrinks`; or `Memory`, as `grow` says.
#[inline]
pub fn grow<A: Allocator + Copy>(
    atlas: &mut SimpleAtlasAllocator<A>,
    new_size: Size,
) -> Result<(), CallError> {
    // Their contracts say what each allocator keeps.
    let _kept = (atlas.size(), atlas.slots());
    if !atlas.can_grow_to(new_size) {
        return Err(CallError::Shrinks);
    }
    atlas.grow(new_size)?;
    Ok(())
}

/// `SimpleAtlasAllocator::reset` to any size and with any options. `EmptySize`, `Alignment` or `Thresholds`.
#[inline]
pub fn reset<A: Allocator + Copy>(
    atlas: &mut SimpleAtlasAllocator<A>,
    size: Size,
    options: &AllocatorOptions,
) -> Result<(), CallError> {
    let _size = atlas.size();
    check_start(size, options)?;
    atlas.reset(size, options)?;
    Ok(())
}
