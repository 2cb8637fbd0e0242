// Erased from crates/guillotiere/src/pages.rt by rust/erase: don't edit.
//! Pages of a texture array: several atlases in a list, each with ids of its own.

use crate::atlas_model::{AllocId, Allocation, AtlasError, Size};
use crate::guillotiere::AtlasAllocator;
use wollemigo_support::alloc::Allocator;

/// Asks a page for a box, as `allocate` does: with 4 slots of the page in reserve never `Memory`. Requires that there is such a page.
/// The other pages stay as they are.
#[inline]
pub fn allocate_on<A: Allocator + Copy>(
    pages: &mut [AtlasAllocator<A>],
    page: usize,
    size: Size,
) -> Result<Option<Allocation>, AtlasError> {
    pages[page].allocate(size)
}

/// Frees the box of an id of a page, as `deallocate` does. Requires that there is such a page. `NotLive` if the id isn't
/// live there, and then nothing changes. What the page has in reserve it keeps. The other pages stay as they are.
#[inline]
pub fn deallocate_on<A: Allocator + Copy>(
    pages: &mut [AtlasAllocator<A>],
    page: usize,
    id: AllocId,
) -> Result<(), AtlasError> {
    pages[page].deallocate(id)
}

// Whether a request has room on a page.
#[inline]
fn has_room<A: Allocator + Copy>(page: &AtlasAllocator<A>, size: Size) -> bool {
    page.can_fit(size)
}

/// The first page on which a request has room, by `can_fit`; None if it has room on none.
#[inline]
#[must_use]
pub fn page_with_room<A: Allocator + Copy>(
    pages: &[AtlasAllocator<A>],
    size: Size,
) -> Option<usize> {
    for page in 0..pages.len() {
        if has_room(&pages[page], size) {
            return Some(page);
        }
    }
    None
}
