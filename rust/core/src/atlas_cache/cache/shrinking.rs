// Erased from crates/atlas_cache/src/cache/shrinking.rt by rust/erase: don't edit.
//! Pages that are given back.

use crate::atlas_cache::cache::TextureCache;
use crate::atlas_cache::changes::{CacheChange, Changes};
use crate::atlas_entries::error::CacheError;
use wollemigo_support::alloc::Allocator;
use wollemigo_support::hash::{BuildHasher, Hash};

impl<K: Copy + Eq + Hash, S: BuildHasher, A: Allocator + Copy> TextureCache<K, S, A> {
    /// Removes the pages after the last one with an entry, and adds each to the changes as `PageRemoved`, the last page
    /// first. The others stay, with their sizes, and so do all entries: a page that others follow stays, though it has
    /// nothing on it. After `clear` all pages go. Entries in reserve stay; a page that goes takes its slots in reserve along,
    /// and one that is added later has none. The list of changes is asked for room for as many as there are pages;
    /// with `Memory`, if that is refused, nothing changes.
    #[inline]
    pub fn shrink(&mut self, changes: &mut Changes<K, A>) -> Result<(), CacheError> {
        changes.reserve(self.rooms.len() as usize)?;
        self.drop_pages(changes);
        Ok(())
    }

    // The pages behind the last one with an entry go.
    #[inline]
    fn drop_pages(&mut self, changes: &mut Changes<K, A>) {
        'each: loop {
            if !self.drop_page(changes) {
                return;
            }
        }
    }

    // The last page goes, if nothing is live on it; whether it did.
    #[inline]
    fn drop_page(&mut self, changes: &mut Changes<K, A>) -> bool {
        let page = match self.rooms.remove_page() {
            Some(page) => page,
            _ => {
                return false;
            }
        };
        changes.push_reserved(CacheChange::PageRemoved { page });
        true
    }
}
