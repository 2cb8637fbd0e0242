// Erased from crates/atlas_cache/src/rooms/reserving.rt by rust/erase: don't edit.
//! Memory for slots of the pages before they are used.

use crate::atlas_cache::rooms::{refusal, Rooms};
use crate::atlas_entries::error::CacheError;
use wollemigo_support::alloc::Allocator;

impl<A: Allocator + Copy> Rooms<A> {
    /// At least so many slots are in reserve on each page from now on, so that a grant on it, which takes at most 4, asks for
    /// no memory, and no page passes the 16,777,216 that it may use. Nothing else changes. `Slots` only if a page would use more than
    /// that with them, `Memory` only if some page hasn't as many in reserve and memory is refused; the pages before that one have theirs
    /// in reserve then, and it and those after it are as they were.
    #[inline]
    pub fn reserve_slots(&mut self, additional: u32) -> Result<(), CacheError> {
        for page in 0..self.pages.len() {
            if let Err(error) = self.pages[page].reserve(additional) {
                return Err(refusal(error));
            }
        }
        Ok(())
    }
}
