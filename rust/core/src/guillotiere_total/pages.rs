// Erased from crates/guillotiere_total/src/pages.rt by rust/erase: don't edit.
//! Calls of one of several pages.

use crate::guillotiere::{pages, AllocId, Allocation, AtlasAllocator, Size};
use crate::guillotiere_total::error::CallError;
use wollemigo_support::alloc::Allocator;

/// `pages::allocate_on` with any number of a page. `NoPage`; or `Slots` or `Memory`, as `allocate` says.
#[inline]
pub fn allocate_on<A: Allocator + Copy>(
    pages: &mut [AtlasAllocator<A>],
    page: usize,
    size: Size,
) -> Result<Option<Allocation>, CallError> {
    if page >= pages.len() {
        return Err(CallError::NoPage);
    }
    Ok(pages::allocate_on(pages, page, size)?)
}

/// `pages::deallocate_on` with any number of a page. `NoPage`; or `NotLive` if the id isn't live there.
#[inline]
pub fn deallocate_on<A: Allocator + Copy>(
    pages: &mut [AtlasAllocator<A>],
    page: usize,
    id: AllocId,
) -> Result<(), CallError> {
    if page >= pages.len() {
        return Err(CallError::NoPage);
    }
    pages::deallocate_on(pages, page, id)?;
    Ok(())
}
