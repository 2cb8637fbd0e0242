// Erased from crates/atlas_allocator/src/atlas/queries.rt by rust/erase: don't edit.
//! What may be asked of an atlas before a call.

use crate::atlas_allocator::atlas::AtlasAllocator;
use crate::atlas_model::{AllocatorOptions, Size};
use wollemigo_support::alloc::Allocator;

impl<A: Allocator + Copy> AtlasAllocator<A> {
    /// The options of the atlas.
    #[inline]
    #[must_use]
    pub fn options(&self) -> AllocatorOptions {
        self.store.options()
    }

    /// Whether `grow` may be called with this size: neither side is less than the atlas's.
    #[inline]
    #[must_use]
    pub fn can_grow_to(&self, new_size: Size) -> bool {
        self.size.width <= new_size.width && self.size.height <= new_size.height
    }

    /// Whether a request has room: its size isn't empty and, rounded up, fits a free rectangle. Then `allocate` grants
    /// it, slots and memory aside; else it answers None. Takes a look at the first box of a few lists, and a search only where that
    /// doesn't show room; no memory.
    #[inline]
    #[must_use]
    pub fn can_fit(&self, requested_size: Size) -> bool {
        match self.store.rounded(requested_size) {
            Some(size) => self.store.fits_at_once(size) || self.store.choose(size).is_some(),
            None => false,
        }
    }
}
