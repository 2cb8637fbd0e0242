// Erased from crates/atlas_store/src/store/choosing.rt by rust/erase: don't edit.
//! What a request takes of a store: its size rounded, the free slot, and memory for more slots.

use crate::atlas_model::{AtlasError, Size};
use crate::atlas_search::best::Found;
use crate::atlas_search::choice::rounded;
use crate::atlas_search::glance::fits_at_once;
use crate::atlas_search::search::pick;
use crate::atlas_search::table::FEW;
use crate::atlas_store::store::Store;
use wollemigo_support::alloc::Allocator;

impl<A: Allocator> Store<A> {
    /// The size of a request, rounded up to multiples of the alignment; None if a side is 0 or less, or if a rounded
    /// side passes 2147483647.
    #[inline]
    #[must_use]
    pub fn rounded(&self, size: Size) -> Option<Size> {
        rounded(size, &self.options)
    }

    /// The free slot that a request of this rounded size takes; None if it fits none.
    #[inline]
    #[must_use]
    pub fn choose(&self, size: Size) -> Option<Found> {
        pick(&self.slots, &self.lists, &self.options, size)
    }

    /// Whether a request of this rounded size fits the first box of its own list, or one of a list to the right and below. Where it
    /// doesn't, it may fit another free box.
    #[inline]
    #[must_use]
    pub fn fits_at_once(&self, size: Size) -> bool {
        fits_at_once(&self.slots, &self.lists, &self.options, size)
    }

    /// Makes room for slots in addition to those in use. `Slots` if there would be more than the limit; `Memory`, if
    /// they are more than were ever used and more than there is room for, and memory for them is refused. The slots and
    /// their lists stay as they are.
    #[inline]
    pub fn make_room(&mut self, used: u32, limit: u32, needed: u32) -> Result<(), AtlasError> {
        if needed > limit - used {
            return Err(AtlasError::Slots);
        }
        let all = (used + needed) as usize;
        if all <= self.slots.capacity() {
            return Ok(());
        }
        if all <= FEW {
            self.slots.reserve_exact(FEW - self.slots.len())?;
        } else {
            self.lists.grow()?;
            self.slots.reserve(all - self.slots.len())?;
        }
        Ok(())
    }
}
