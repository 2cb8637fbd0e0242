// Erased from crates/atlas_cache/src/cache/inserting.rt by rust/erase: don't edit.
//! A new key on a page: what room is made for it, and how many evictions fragmentation forced.

use crate::atlas_cache::cache::vacating::Vacated;
use crate::atlas_cache::cache::TextureCache;
use crate::atlas_cache::changes::Changes;
use crate::atlas_cache::inserted::Inserted;
use crate::atlas_entries::error::CacheError;
use crate::guillotiere::Size;
use wollemigo_support::alloc::Allocator;
use wollemigo_support::hash::{BuildHasher, Hash};

// So many entries go in the order of use, where that alone makes no room, before those of one box do.
const OLDEST_FIRST: u32 = 16;

impl<K: Copy + Eq + Hash, S: BuildHasher, A: Allocator + Copy> TextureCache<K, S, A> {
    // Inserts a key that isn't held, of a size that can stand on a page.
    #[inline]
    pub(crate) fn insert_new(
        &mut self,
        key: K,
        size: Size,
        asked: Size,
        changes: &mut Changes<K, A>,
    ) -> Result<Inserted, CacheError> {
        let has_area = self.rooms.have_area(asked);
        let before = self.counts.evictions;
        let inserted = self.insert_uncounted(key, size, asked, changes);
        if has_area {
            let forced = self.counts.evictions.saturating_sub(before);
            self.counts.forced = self.counts.forced.saturating_add(forced);
        }
        inserted
    }

    // Inserts a key, and leaves the count of forced evictions as it is.
    #[inline]
    fn insert_uncounted(
        &mut self,
        key: K,
        size: Size,
        asked: Size,
        changes: &mut Changes<K, A>,
    ) -> Result<Inserted, CacheError> {
        let mut from = 0;
        let mut to = self.rooms.len() as usize;
        let mut left = OLDEST_FIRST;
        loop {
            if let Some(place) = self.add(key, size, asked, from, to)? {
                return Ok(Inserted::Placed(place));
            }
            if let Some(answer) = self.insert_cleared(key, size, asked, left, changes)? {
                return Ok(answer);
            }
            left = left.saturating_sub(1);
            let page = match self.make_room(asked, changes)? {
                Some(page) => page,
                _ => {
                    return Ok(Inserted::FrameFull);
                }
            };
            // The others have no room still.
            from = page as usize;
            to = from + 1;
        }
    }

    // Inserts a key that has room on no page, by the eviction of what lies in one box; None where more may go in the order of use, where
    // a page may still grow or be added, or where memory for the marks of a rehearsal is refused, and then nothing changes.
    #[inline]
    fn insert_cleared(
        &mut self,
        key: K,
        size: Size,
        asked: Size,
        left: u32,
        changes: &mut Changes<K, A>,
    ) -> Result<Option<Inserted>, CacheError> {
        if left > 0 {
            return Ok(None);
        }
        if !self.rooms.are_full() {
            return Ok(None);
        }
        match self.vacate(asked, changes)? {
            Vacated::Unmarked => Ok(None),
            Vacated::Crowded => Ok(Some(Inserted::FrameFull)),
            Vacated::Room(page) => {
                let from = page as usize;
                match self.add(key, size, asked, from, from + 1)? {
                    Some(place) => Ok(Some(Inserted::Placed(place))),
                    // There is room on that page.
                    None => Ok(Some(Inserted::FrameFull)),
                }
            }
        }
    }
}
