// Erased from crates/atlas_allocator/src/atlas/requesting.rt by rust/erase: don't edit.
//! A request, as `allocate` and a rearrangement make it.

use crate::atlas_allocator::atlas::AtlasAllocator;
use crate::atlas_model::{Allocation, AtlasError, Size};
use crate::atlas_tree::requests::{grant, plan_for, slots_needed};
use wollemigo_support::alloc::Allocator;

impl<A: Allocator + Copy> AtlasAllocator<A> {
    /// Grants a request, as `allocate` does. Where each slot is in its first generation, and none unused, it stays so.
    #[inline]
    pub(crate) fn request(
        &mut self,
        requested_size: Size,
    ) -> Result<Option<Allocation>, AtlasError> {
        let size = match self.store.rounded(requested_size) {
            Some(size) => size,
            _ => {
                return Ok(None);
            }
        };
        let chosen = match self.store.choose(size) {
            Some(chosen) => chosen,
            _ => {
                return Ok(None);
            }
        };
        let plan = plan_for(&self.store.node(chosen.at), size);
        let needed = slots_needed(plan);
        self.store.make_room(self.used, self.limit, needed)?;
        self.used += needed;
        Ok(Some(grant(&mut self.store, chosen, plan)))
    }
}
