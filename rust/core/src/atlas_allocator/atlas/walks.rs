// Erased from crates/atlas_allocator/src/atlas/walks.rt by rust/erase: don't edit.
//! Walks along the live and the free rectangles of an atlas, lists of them, and their areas.

use crate::atlas_allocator::atlas::AtlasAllocator;
use crate::atlas_model::{AllocId, Allocation, AtlasError, Rectangle};
use crate::atlas_store::slots::walks::{
    free_sum, gather_allocated, gather_free, live_sum, visit_allocated, visit_free,
};
use wollemigo_support::alloc::Allocator;
use wollemigo_support::prelude::Vec;

impl<A: Allocator + Copy> AtlasAllocator<A> {
    /// The area of all live rectangles together, in unit squares: with `free_area` it is the width times the height of
    /// the atlas. One pass over the slots, and no memory.
    #[inline]
    #[must_use]
    pub fn allocated_area(&self) -> u64 {
        live_sum(self.store.slots())
    }

    /// The area of all free rectangles together, in unit squares. One pass over the slots, and no memory.
    #[inline]
    #[must_use]
    pub fn free_area(&self) -> u64 {
        free_sum(self.store.slots())
    }

    /// Calls `visit` on each free rectangle once, in an unspecified order. Requires only that `visit` may be called on them
    /// one after another in any such order: it is called with nothing else. No coordinate of these rectangles is negative.
    #[inline]
    pub fn for_each_free_rectangle<F: FnMut(&Rectangle)>(&self, visit: F) {
        visit_free(self.store.slots(), visit);
    }

    /// Calls `visit` on each live id and its rectangle once, by rising number of the slot, which is the low 24 bits of
    /// the id. Requires only that `visit` may be called on them in that order: it is called with nothing else.
    #[inline]
    pub fn for_each_allocated_rectangle<F: FnMut(AllocId, &Rectangle)>(&self, visit: F) {
        visit_allocated(self.store.slots(), visit);
    }

    /// The live ids with their rectangles, by rising number of the slot. `Memory` is the only error.
    #[inline]
    pub fn allocations(&self) -> Result<Vec<Allocation, A>, AtlasError> {
        gather_allocated(self.store.allocator(), self.store.slots())
    }

    /// The free rectangles, in an order that is left open. `Memory` is the only error.
    #[inline]
    pub fn free_rectangles(&self) -> Result<Vec<Rectangle, A>, AtlasError> {
        gather_free(self.store.allocator(), self.store.slots())
    }
}
