// Erased from crates/atlas_cache/src/cache/figures.rt by rust/erase: don't edit.
//! What a cache reports about itself: how it was made, how it was used, and the areas of its pages.

use crate::atlas_cache::cache::TextureCache;
use crate::atlas_cache::counts::Counts;
use crate::atlas_cache::options::CacheOptions;
use crate::atlas_entries::error::CacheError;
use crate::guillotiere::Size;
use wollemigo_support::alloc::Allocator;
use wollemigo_support::hash::{BuildHasher, Hash};

impl<K: Copy + Eq + Hash, S: BuildHasher, A: Allocator + Copy> TextureCache<K, S, A> {
    /// How the cache was made.
    #[inline]
    #[must_use]
    pub fn options(&self) -> CacheOptions {
        self.rooms.options()
    }

    /// How often `get` or `insert` found a key held, how often `get` didn't, and how many entries were evicted, since the
    /// cache was made. So hits by hits and misses together is the hit rate of a loop that calls `insert` where `get` finds
    /// nothing. In one that calls `insert` alone there are no misses: the hit rate is hits by calls.
    #[inline]
    #[must_use]
    pub fn statistics(&self) -> Counts {
        self.counts
    }

    /// How many numbers entries have had since the cache was made or cleared: each number is below this. There are at most as
    /// many as there ever were entries at once.
    #[inline]
    #[must_use]
    pub fn numbers(&self) -> u32 {
        self.entries.made()
    }

    /// The area of all entries of a page together, with their padding and what alignment added, in pixels; None if
    /// there is no such page. Takes no memory, and no walk.
    #[inline]
    #[must_use]
    pub fn live_area(&self, page: u32) -> Option<u64> {
        if page < self.rooms.len() {
            Some(self.rooms.live_area(page))
        } else {
            None
        }
    }

    /// The area of a page that no entry takes, in pixels; None if there is no such page. Takes no memory, and no walk.
    #[inline]
    #[must_use]
    pub fn free_area(&self, page: u32) -> Option<u64> {
        if page < self.rooms.len() {
            Some(self.rooms.free_area(page))
        } else {
            None
        }
    }

    /// The area of a page, in pixels, that is free in rectangles which have no room for an entry of this size, with its
    /// padding and rounded up to the alignment; None if there is no such page. A side below 0 counts as 0. The answer
    /// says how much of the free area (`free_area`) is of no use for entries of the usual size: where that is a lot, it
    /// is time to repack the page. Takes memory for a list of the page's free rectangles: `Memory` if that is refused.
    #[inline]
    pub fn unusable_area(&self, page: u32, size: Size) -> Result<Option<u64>, CacheError> {
        if page < self.rooms.len() {
            Ok(Some(self.rooms.unusable_area(page, size)?))
        } else {
            Ok(None)
        }
    }
}
