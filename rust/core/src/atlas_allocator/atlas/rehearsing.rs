// Erased from crates/atlas_allocator/src/atlas/rehearsing.rt by rust/erase: don't edit.
//! Rehearsals of freeings: the free box that there would be, were some ids freed.

use crate::atlas_allocator::atlas::AtlasAllocator;
use crate::atlas_model::{AllocId, Rectangle, Size};
use crate::atlas_search::link::Link;
use crate::atlas_store::slots::rehearsing::show;
use crate::atlas_store::slots::walks::slot_number;
use wollemigo_support::alloc::Allocator;

impl<A: Allocator + Copy> AtlasAllocator<A> {
    /// Shows a live id as freed, in addition to those that the marks show, and leaves the atlas as it is. The answer is the free
    /// rectangle that would be around its rectangle, were all that is shown freed. Requires a live id that isn't shown yet. There is a
    /// mark for each slot that is kept (`slots`); at first all are false (`prove_none_shown`). One step for each container that is shown
    /// with it, and for each member beside these that is free or shown; no memory.
    #[inline]
    pub fn rehearse(&self, marks: &mut [bool], id: AllocId) -> Rectangle {
        let leaf = Link {
            number: slot_number(id),
        };
        show(self.store.slots(), marks, leaf)
    }

    /// Whether a request, rounded up, fits a rectangle: its size isn't empty, and neither side passes that of the rectangle. Requires
    /// coordinates that aren't negative.
    #[inline]
    #[must_use]
    pub fn fits(&self, requested_size: Size, area: &Rectangle) -> bool {
        let width = area.width();
        let height = area.height();
        match self.store.rounded(requested_size) {
            Some(size) => size.width <= width && size.height <= height,
            None => false,
        }
    }
}
