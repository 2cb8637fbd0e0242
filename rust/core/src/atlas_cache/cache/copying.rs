// Erased from crates/atlas_cache/src/cache/copying.rt by rust/erase: don't edit.
//! A second cache like a first one.

use crate::atlas_cache::cache::TextureCache;
use wollemigo_support::alloc::{AllocError, Allocator};
use wollemigo_support::clone::Clone;
use wollemigo_support::hash::{BuildHasher, Hash};
use wollemigo_support::prelude::Vec;

impl<K: Copy + Eq + Hash, S: BuildHasher + Clone, A: Allocator + Copy> TextureCache<K, S, A> {
    /// A copy, which goes on by itself, in new memory of the same allocator: its options, its entries with their places, numbers and
    /// order, its frame and its counts are the same, and the atlas of each page stores the same. So are its answers to later calls,
    /// except where memory is refused: what is in reserve isn't copied. Goes over all slots of the pages and all numbers of entries.
    #[inline]
    pub fn clone(&self) -> Result<Self, AllocError> {
        let rooms = self.rooms.copy()?;
        let entries = self.entries.copy()?;
        Ok(TextureCache {
            rooms,
            entries,
            frame: self.frame,
            counts: self.counts,
            marks: Vec::new(*self.marks.allocator()),
        })
    }
}
