//! What may be asked of a cache and of its pages.
use super::{CacheError, CacheOptions, Counts, TextureCache};
use crate::{convert, Size};
use core::hash::{BuildHasher, Hash};

impl<K: Copy + Eq + Hash, S: BuildHasher> TextureCache<K, S> {
    /// How many pages there are.
    #[must_use]
    pub fn pages(&self) -> u32 {
        self.cache.pages()
    }

    /// The size of a page, in pixels; None if there is no such page.
    #[must_use]
    pub fn page_size(&self, page: u32) -> Option<Size> {
        self.cache.page_size(page).map(convert::size)
    }

    /// The area of all entries of a page together, with their padding and what alignment added, in unit squares; None
    /// if there is no such page.
    #[must_use]
    pub fn live_area(&self, page: u32) -> Option<u64> {
        self.cache.live_area(page)
    }

    /// The area of a page that no entry takes, in unit squares; None if there is no such page.
    #[must_use]
    pub fn free_area(&self, page: u32) -> Option<u64> {
        self.cache.free_area(page)
    }

    /// The options with which the cache was made.
    #[must_use]
    pub fn options(&self) -> CacheOptions {
        let options = self.cache.options();
        CacheOptions {
            page: convert::size(options.page),
            largest_page: convert::size(options.largest_page),
            pages: options.pages,
            padding: options.padding,
            atlas: convert::options(&options.atlas),
        }
    }

    /// The counts since the cache was made.
    ///
    /// In a loop that calls `insert` where `get` finds nothing, the hit rate is hits by hits and misses together. In one that calls
    /// `insert` alone there are no misses, since `insert` counts none: the hit rate is hits by calls.
    #[must_use]
    pub fn statistics(&self) -> Counts {
        let counts = self.cache.statistics();
        Counts {
            hits: counts.hits,
            misses: counts.misses,
            evictions: counts.evictions,
            forced: counts.forced,
        }
    }

    /// The area of a page, in pixels, that is free in rectangles which have no room for an entry of this size, with its padding
    /// and rounded up to the alignment; a side below 0 counts as 0. None if there is no such page. Where much of the free area is
    /// of no use for entries of the usual size, it is time to repack the page.
    ///
    /// # Errors
    ///
    /// `Memory` if memory for a list of the page's free rectangles is refused.
    pub fn unusable_area(&self, page: u32, size: Size) -> Result<Option<u64>, CacheError> {
        Ok(self
            .cache
            .unusable_area(page, convert::library_size(size))?)
    }
}
