// Erased from crates/atlas_cache/src/cache/clearing.rt by rust/erase: don't edit.
//! Removing entries without inserting one, and reserving room beforehand.

use crate::atlas_cache::cache::holding::{oldest, place_of, take_out};
use crate::atlas_cache::cache::TextureCache;
use crate::atlas_cache::changes::{CacheChange, Changes};
use crate::atlas_cache::counts::count;
use crate::atlas_entries::error::CacheError;
use wollemigo_support::alloc::Allocator;
use wollemigo_support::hash::{BuildHasher, Hash};

impl<K: Copy + Eq + Hash, S: BuildHasher, A: Allocator + Copy> TextureCache<K, S, A> {
    /// Removes all keys. The pages stay, with their sizes and with nothing on them, and so do the frame and the counts. No
    /// change reports this: the caller forgets all places. Takes no memory, and gives none back: what the keys had is
    /// in reserve. A `shrink` after it takes all pages away, and then the cache begins with small ones again. Its time grows by the
    /// pages and by the most keys that there were.
    #[inline]
    pub fn clear(&mut self) {
        self.entries.clear();
        self.rooms.clear();
    }

    /// Evicts the entries that weren't used for at least this many frames. A frame is a call of `begin_frame`: with 1 all goes that
    /// wasn't used since the last one, with 0 all. Each is added to the changes as `Evicted`, the least recently used first. The
    /// others stay. The list of changes is asked for room for as many as there are entries; with `Memory`, if that is refused,
    /// nothing changes. Takes a freeing for each key that goes.
    #[inline]
    pub fn trim(&mut self, frames: u64, changes: &mut Changes<K, A>) -> Result<(), CacheError> {
        changes.reserve(self.entries.len())?;
        self.drop_unused(frames, changes);
        Ok(())
    }

    /// Makes sure that at least this many entries are in reserve: the insertions that follow ask for memory only for pages, for
    /// their slots, and for changes. Each key that is added takes one of them; one that goes gives none back, but `clear`
    /// does; `trim`, `shrink` and `repack` take none. Nothing else changes, and nothing at all with `Memory`, if memory is refused.
    #[inline]
    pub fn reserve(&mut self, additional: usize) -> Result<(), CacheError> {
        self.entries.reserve(additional)?;
        Ok(())
    }

    /// Makes sure that at least this many slots are in reserve on each page, and that each page may use so many more of the
    /// 16,777,216 that there can be. An insert that neither adds a page nor grows one takes at most 4 of each page; a page that is
    /// added later has none in reserve, one that grows takes up to 3 of its own, one that is repacked may have none, and one that
    /// goes (`shrink`) takes its own along; `remove`, `trim` and `clear` take none away. Nothing else changes. `Slots` only if a page
    /// would use more than 16,777,216 with them, `Memory` only if some page hasn't as many in reserve and memory is refused; the
    /// pages before that one have theirs in reserve then, and it and those after it are as they were. Takes as many steps as there
    /// are pages, and memory for those that need it.
    #[inline]
    pub fn reserve_slots(&mut self, additional: u32) -> Result<(), CacheError> {
        self.rooms.reserve_slots(additional)?;
        // Where it is refused, it is asked for again when it is needed.
        let _refused = self.rooms.reserve_marks(additional, &mut self.marks);
        Ok(())
    }

    // The entries that weren't used for so many frames go.
    #[inline]
    fn drop_unused(&mut self, frames: u64, changes: &mut Changes<K, A>) {
        'each: loop {
            if !self.drop_last(frames, changes) {
                return;
            }
        }
    }

    // The least recently used entry goes, if it wasn't used for so many frames; whether it did.
    #[inline]
    fn drop_last(&mut self, frames: u64, changes: &mut Changes<K, A>) -> bool {
        let (number, entry) = match oldest(&self.entries) {
            Some((number, entry)) => (number, entry),
            _ => {
                return false;
            }
        };
        if self.frame - entry.frame < frames {
            return false;
        }
        take_out(&mut self.rooms, &mut self.entries, number, entry);
        self.counts.evictions = count(self.counts.evictions);
        let place = place_of(entry, &self.rooms.options());
        let key = entry.key;
        changes.push_reserved(CacheChange::Evicted { key, place });
        true
    }
}
