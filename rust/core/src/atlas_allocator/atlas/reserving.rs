// Erased from crates/atlas_allocator/src/atlas/reserving.rt by rust/erase: don't edit.
//! Memory for slots before they are used.

use crate::atlas_allocator::atlas::AtlasAllocator;
use crate::atlas_model::AtlasError;
use wollemigo_support::alloc::Allocator;

impl<A: Allocator + Copy> AtlasAllocator<A> {
    /// Takes memory for this many slots in addition to those in use. Nothing else changes: later calls have the answers
    /// and the ids that they would have had, except that no grant or growth is answered `Memory` while no more slots are used than
    /// that. A grant uses at most 4 more slots and a growth at most 3; a freeing uses none. The memory stays until the
    /// atlas is rearranged or dropped, and a copy has none of it. `Slots` if more slots would be used than the limit
    /// allows; `Memory` if memory for them is refused; then nothing changes at all.
    #[inline]
    pub fn reserve(&mut self, additional: u32) -> Result<(), AtlasError> {
        self.store.make_room(self.used, self.limit, additional)
    }
}
