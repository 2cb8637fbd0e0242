// Erased from crates/guillotiere_c/src/followed.rt by rust/erase: don't edit.
//! A cache with the list of its changes, from which its caller takes one after another.

use wollemigo_core::atlas_cache::{
    CacheChange, CacheError, CacheOptions, Changes, Inserted, OptionsError, Place, TextureCache,
};
use wollemigo_core::guillotiere::Size;
use wollemigo_support::alloc::{AllocError, Global};
use wollemigo_support::prelude::Vec;

/// A cache, and the changes that weren't handed over yet. Those that were stay in the list until the last one is handed
/// over, or the next call comes that adds to it.
pub struct FollowedCache {
    cache: TextureCache<u64>,
    changes: Changes<u64>,
    taken: usize,
}

// Drops what was handed over.
fn drop_taken(changes: &mut Changes<u64>, taken: &mut usize) {
    if *taken > 0 {
        changes.drain(..*taken);
        *taken = 0;
    }
}

// The first change that wasn't handed over.
fn take_first(changes: &mut Changes<u64>, taken: &mut usize) -> Option<CacheChange<u64>> {
    if *taken >= changes.len() {
        return None;
    }
    let change = changes[*taken];
    *taken += 1;
    if *taken == changes.len() {
        drop_taken(changes, taken);
    }
    Some(change)
}

impl FollowedCache {
    /// No pages and no entries. Takes no memory. An error says what is wrong with the options.
    pub fn new(alloc: Global, options: CacheOptions) -> Result<FollowedCache, OptionsError> {
        let cache = TextureCache::new(alloc, options)?;
        Ok(FollowedCache {
            cache,
            changes: Vec::new(alloc),
            taken: 0,
        })
    }

    /// The cache, for what only reads it.
    pub fn cache(&self) -> &TextureCache<u64> {
        &self.cache
    }

    /// A copy, which goes on by itself, in new memory: the cache stores the same, and the same changes weren't handed over.
    pub fn clone(&self) -> Result<FollowedCache, AllocError> {
        let cache = self.cache.clone()?;
        let changes = Vec::from_slice(*self.changes.allocator(), &self.changes[self.taken..])?;
        Ok(FollowedCache {
            cache,
            changes,
            taken: 0,
        })
    }

    /// The first change that wasn't handed over yet, which is handed over now; None if there is none.
    pub fn next_change(&mut self) -> Option<CacheChange<u64>> {
        take_first(&mut self.changes, &mut self.taken)
    }

    /// A new frame: what was used before may go from now on.
    pub fn begin_frame(&mut self) {
        self.cache.begin_frame();
    }

    /// As `TextureCache::get`.
    pub fn get(&mut self, key: u64) -> Option<Place> {
        self.cache.get(&key)
    }

    /// As `TextureCache::insert`. Its changes come behind those that weren't handed over.
    pub fn insert(&mut self, key: u64, size: Size) -> Result<Inserted, CacheError> {
        drop_taken(&mut self.changes, &mut self.taken);
        self.cache.insert(key, size, &mut self.changes)
    }

    /// As `TextureCache::remove`.
    pub fn remove(&mut self, key: u64) -> Option<Place> {
        self.cache.remove(&key)
    }

    /// As `TextureCache::clear`. The changes that weren't handed over stay.
    pub fn clear(&mut self) {
        self.cache.clear();
    }

    /// As `TextureCache::trim`. Its changes come behind those that weren't handed over.
    pub fn trim(&mut self, frames: u64) -> Result<(), CacheError> {
        drop_taken(&mut self.changes, &mut self.taken);
        self.cache.trim(frames, &mut self.changes)
    }

    /// As `TextureCache::end_batch`. Its changes come behind those that weren't handed over.
    pub fn end_batch(&mut self, keys: usize) -> Result<(), CacheError> {
        drop_taken(&mut self.changes, &mut self.taken);
        self.cache.end_batch(keys, &mut self.changes)
    }

    /// As `TextureCache::shrink`. Its changes come behind those that weren't handed over.
    pub fn shrink(&mut self) -> Result<(), CacheError> {
        drop_taken(&mut self.changes, &mut self.taken);
        self.cache.shrink(&mut self.changes)
    }

    /// As `TextureCache::compact`. Its changes come behind those that weren't handed over.
    pub fn compact(&mut self, pixels: u64) -> Result<u64, CacheError> {
        drop_taken(&mut self.changes, &mut self.taken);
        self.cache.compact(pixels, &mut self.changes)
    }

    /// As `TextureCache::repack`. Its changes come behind those that weren't handed over.
    pub fn repack(&mut self, page: u32) -> Result<bool, CacheError> {
        drop_taken(&mut self.changes, &mut self.taken);
        self.cache.repack(page, &mut self.changes)
    }

    /// As `TextureCache::repack_keeping_all`. Its changes come behind those that weren't handed over.
    pub fn repack_keeping_all(&mut self, page: u32) -> Result<bool, CacheError> {
        drop_taken(&mut self.changes, &mut self.taken);
        self.cache.repack_keeping_all(page, &mut self.changes)
    }

    /// As `TextureCache::reserve`.
    pub fn reserve(&mut self, additional: usize) -> Result<(), CacheError> {
        self.cache.reserve(additional)
    }

    /// As `TextureCache::reserve_slots`.
    pub fn reserve_slots(&mut self, additional: u32) -> Result<(), CacheError> {
        self.cache.reserve_slots(additional)
    }

    /// Takes memory for so many changes besides those that weren't handed over; nothing else changes. `Memory` if it is refused.
    pub fn reserve_changes(&mut self, additional: usize) -> Result<(), CacheError> {
        drop_taken(&mut self.changes, &mut self.taken);
        self.changes.reserve(additional)?;
        Ok(())
    }
}
