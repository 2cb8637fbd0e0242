// Erased from crates/atlas_cache/src/cache/batches.rt by rust/erase: don't edit.
//! The end of a batch: what was drawn last makes room, though the frame goes on.

use crate::atlas_cache::cache::holding::{place_of, take_out};
use crate::atlas_cache::cache::walking::newest;
use crate::atlas_cache::cache::TextureCache;
use crate::atlas_cache::changes::{CacheChange, Changes};
use crate::atlas_cache::counts::count;
use crate::atlas_entries::error::CacheError;
use wollemigo_support::alloc::Allocator;
use wollemigo_support::hash::{BuildHasher, Hash};

impl<K: Copy + Eq + Hash, S: BuildHasher, A: Allocator + Copy> TextureCache<K, S, A> {
    /// Ends a batch, which was drawn, where the frame has no room for what comes next in it: this many of the most recently used
    /// entries go, all if there are no more, and no others. Each is added to the changes as `Evicted`, the most recently used first. The
    /// frame goes on: `insert` evicts nothing of what is left that it used, and `trim` counts it once. The list of changes is asked for
    /// room for as many as there are entries; with `Memory`, if that is refused, nothing changes. Takes a freeing for each key that goes.
    #[inline]
    pub fn end_batch(
        &mut self,
        keys: usize,
        changes: &mut Changes<K, A>,
    ) -> Result<(), CacheError> {
        changes.reserve(self.entries.len())?;
        self.drop_used(keys, changes);
        Ok(())
    }

    // So many of the most recently used entries go.
    #[inline]
    fn drop_used(&mut self, keys: usize, changes: &mut Changes<K, A>) {
        for dropped in 0..keys {
            if !self.drop_first(changes) {
                return;
            }
        }
    }

    // The most recently used entry goes; whether there was one.
    #[inline]
    fn drop_first(&mut self, changes: &mut Changes<K, A>) -> bool {
        let (number, entry) = match newest(&self.entries) {
            Some((number, entry)) => (number, entry),
            _ => {
                return false;
            }
        };
        take_out(&mut self.rooms, &mut self.entries, number, entry);
        self.counts.evictions = count(self.counts.evictions);
        let place = place_of(entry, &self.rooms.options());
        let key = entry.key;
        changes.push_reserved(CacheChange::Evicted { key, place });
        true
    }
}
