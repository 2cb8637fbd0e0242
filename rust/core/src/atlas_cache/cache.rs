// Erased from crates/atlas_cache/src/cache.rt by rust/erase: don't edit.
//! The cache.

mod batches;
mod clearing;
mod compacting;
mod copying;
mod figures;
pub mod holding;
mod inserting;
mod iter;
mod repacking;
mod shrinking;
mod vacating;
mod walking;

use crate::atlas_cache::cache::holding::{
    grant, join_blank, look_up, oldest_lying, place_of, take_out,
};
use crate::atlas_cache::changes::{CacheChange, Changes};
use crate::atlas_cache::counts::{count, Counts, NO_COUNTS};
use crate::atlas_cache::error::OptionsError;
use crate::atlas_cache::inserted::Inserted;
use crate::atlas_cache::options::CacheOptions;
use crate::atlas_cache::places::Place;
use crate::atlas_cache::rooms::Rooms;
use crate::atlas_entries::entries::{DefaultHasher, Entries};
use crate::atlas_entries::error::CacheError;
use crate::guillotiere::Size;
pub use iter::Iter;
use wollemigo_support::alloc::{Allocator, Global};
use wollemigo_support::hash::{BuildHasher, BuildHasherDefault, Hash};
use wollemigo_support::prelude::Vec;

/// Rectangles under keys in the pages of a texture array. Contracts see a `CacheState`: how the cache was made, the
/// atlas of each page, the entries (the most recently used first), how many numbers they have had, for how many more there
/// is memory in reserve, the frame, and how the cache was used.
pub struct TextureCache<
    K: Copy + Eq + Hash,
    S: BuildHasher = DefaultHasher,
    A: Allocator + Copy = Global,
> {
    rooms: Rooms<A>,
    entries: Entries<K, S, A>,
    frame: u64,
    counts: Counts,
    // For rehearsals: what is shown as freed, for each page a mark for each of its slots. They mean nothing between two calls.
    marks: Vec<Vec<bool, A>, A>,
}

impl<K: Copy + Eq + Hash, A: Allocator + Copy> TextureCache<K, DefaultHasher, A> {
    /// No pages and no entries. Takes no memory. An error says what is wrong with the options.
    #[inline]
    pub fn new(alloc: A, options: CacheOptions) -> Result<Self, OptionsError> {
        TextureCache::with_hasher(alloc, options, BuildHasherDefault::new())
    }
}

impl<K: Copy + Eq + Hash, S: BuildHasher, A: Allocator + Copy> TextureCache<K, S, A> {
    /// No pages and no entries, with a hasher for the keys. Takes no memory. An error says what is wrong with the options.
    #[inline]
    pub fn with_hasher(alloc: A, options: CacheOptions, hasher: S) -> Result<Self, OptionsError> {
        options.check()?;
        Ok(TextureCache {
            rooms: Rooms::new(alloc, options),
            entries: Entries::with_hasher(alloc, hasher),
            frame: 0,
            counts: NO_COUNTS,
            marks: Vec::new(alloc),
        })
    }
}

impl<K: Copy + Eq + Hash, S: BuildHasher, A: Allocator + Copy> TextureCache<K, S, A> {
    /// Begins a new frame: what isn't used in it may be evicted. Until the first call no key is evicted for another: all that is held
    /// counts as used in the current frame. Frames are counted up to 2^64 - 1; after that one no other begins.
    #[inline]
    pub fn begin_frame(&mut self) {
        self.frame = count(self.frame);
    }

    /// How many entries there are, at most 4,294,967,295.
    #[inline]
    #[must_use]
    pub fn len(&self) -> usize {
        self.entries.len()
    }

    /// Whether there are none.
    #[inline]
    #[must_use]
    pub fn is_empty(&self) -> bool {
        self.entries.is_empty()
    }

    /// How many pages there are.
    #[inline]
    #[must_use]
    pub fn pages(&self) -> u32 {
        self.rooms.len()
    }

    /// The size of a page, in pixels; None if there is no such page.
    #[inline]
    #[must_use]
    pub fn page_size(&self, page: u32) -> Option<Size> {
        if page < self.rooms.len() {
            Some(self.rooms.page_size(page))
        } else {
            None
        }
    }

    /// The place of a key; None if it isn't held. It doesn't count as a use. One look-up by a hash.
    #[inline]
    #[must_use]
    pub fn peek(&self, key: &K) -> Option<Place> {
        let found = match look_up(&self.entries, key) {
            Some((_, found)) => found,
            _ => {
                return None;
            }
        };
        Some(place_of(found, &self.rooms.options()))
    }

    /// The place of a key, which is used in this frame from now on; None if it isn't held. Counts a hit or a miss. One look-up by a hash,
    /// however many keys there are.
    #[inline]
    pub fn get(&mut self, key: &K) -> Option<Place> {
        let (number, entry) = match look_up(&self.entries, key) {
            Some((number, entry)) => (number, entry),
            _ => {
                self.counts.misses = count(self.counts.misses);
                return None;
            }
        };
        self.counts.hits = count(self.counts.hits);
        self.entries.touch(number, self.frame);
        Some(place_of(entry, &self.rooms.options()))
    }

    /// A place for a key, which is used in this frame. A key that is held keeps its place, and is the most recently
    /// used from now on, which counts as a hit; asked for with another size, be it empty or too large, it is
    /// refused with `OtherSize`, and nothing changes. A new key counts as no miss. It goes onto the first page with room for its size, in
    /// pixels, with the padding. If none has room, a page grows; if none can, one is added; and if no more are allowed,
    /// the least recently used entry that lies on a page and that this frame didn't use is evicted; and so on, up to 16 entries. If there
    /// still is no room then, only entries that lie in one box go: the first box on a page that would come free and that the request fits,
    /// if all that this frame didn't use went in that order. Where memory for its search is refused, a byte for each slot of the pages,
    /// they go on in that order. `FrameFull` if no page has room, nor would one have it, were all entries gone that this frame didn't
    /// use, which can't be while this frame has used nothing; `NeverFits` if the size, with the padding and rounded up to the alignment,
    /// exceeds the largest page, and then nothing changes. What was done is added to the changes, whose room is never given back, also
    /// after `FrameFull` and after an error: `Memory`, `Slots` if those of the first page that has room, or of the one that would grow,
    /// don't suffice (no later frame helps then, but `remove`, `trim` and `clear` do), or `Numbers` only where 4,294,967,295 entries are
    /// still held.
    ///
    /// What an insertion evicted counts as forced, by fragmentation, where some page had as much free area before it as was asked for.
    ///
    /// A new key with an empty size, of which a side is 0 or below, becomes a blank entry: `Placed` with a place that is
    /// empty. It takes no room, so no page changes and nothing is evicted for it, nor is it ever evicted for another key.
    /// While entries are in reserve, it is never refused with `Memory`.
    ///
    /// Nor is an insert that neither adds a page nor grows one (since a page has room, or all allowed exist, at their largest) refused
    /// with `Memory`, given one entry in reserve (`reserve`), 4 slots on each page (`reserve_slots`), and room for one change more than
    /// there are entries. Given n entries in reserve, 4n slots and room for n changes more than entries, none of n such inserts is.
    /// It uses at most 4 more slots of a page, and is refused with `Slots` only where a page used all but 3 at most before it. So once
    /// `reserve_slots(4 * n)` was Ok, none of n such inserts is refused with `Slots` either; `get`, `remove`, `clear` and `begin_frame`
    /// between them take nothing of it.
    ///
    /// Takes one look-up by a hash. A new key that isn't blank also takes a few steps for each page, and a request of an atlas for each
    /// page that isn't known to have no room: one that refused a size no larger in width and height, of the last two, and hasn't changed
    /// since, is. An eviction takes a freeing and another request of its page; it passes each blank key that was used before what it evicts
    /// once, and not again until that key is used. The search for one box takes, until it is found, a step for each entry that this frame
    /// didn't use, and what a freeing takes for each of them that lies there.
    #[inline]
    pub fn insert(
        &mut self,
        key: K,
        size: Size,
        changes: &mut Changes<K, A>,
    ) -> Result<Inserted, CacheError> {
        if let Some((known, entry)) = look_up(&self.entries, &key) {
            if entry.size != size {
                return Err(CacheError::OtherSize);
            }
            self.counts.hits = count(self.counts.hits);
            self.entries.touch(known, self.frame);
            return Ok(Inserted::Held(place_of(entry, &self.rooms.options())));
        }
        if !size.is_positive() {
            return self.add_blank(key, size);
        }
        let asked = match self.rooms.options().asked(size) {
            Some(asked) => asked,
            _ => {
                return Ok(Inserted::NeverFits);
            }
        };
        self.insert_new(key, size, asked, changes)
    }

    /// Removes a key, and gives the place that it had; None if it isn't held. Takes no memory, and nothing of what is in reserve;
    /// one look-up by a hash, and a freeing.
    #[inline]
    pub fn remove(&mut self, key: &K) -> Option<Place> {
        let (number, gone) = match look_up(&self.entries, key) {
            Some((number, gone)) => (number, gone),
            _ => {
                return None;
            }
        };
        take_out(&mut self.rooms, &mut self.entries, number, gone);
        Some(place_of(gone, &self.rooms.options()))
    }

    // Adds a key that isn't held, of an empty size.
    #[inline]
    fn add_blank(&mut self, key: K, size: Size) -> Result<Inserted, CacheError> {
        let entry = join_blank(&mut self.entries, key, size, self.frame)?;
        Ok(Inserted::Placed(place_of(entry, &self.rooms.options())))
    }

    // Adds a key on the first page that has room for it, which is one of these, if any has; None if none has.
    #[inline]
    fn add(
        &mut self,
        key: K,
        size: Size,
        asked: Size,
        from: usize,
        to: usize,
    ) -> Result<Option<Place>, CacheError> {
        let granted = grant(
            &mut self.rooms,
            &mut self.entries,
            key,
            size,
            asked,
            self.frame,
            from,
            to,
        )?;
        let entry = match granted {
            Some(entry) => entry,
            _ => {
                return Ok(None);
            }
        };
        Ok(Some(place_of(entry, &self.rooms.options())))
    }

    // One change for a request that has room on no page: the page that changed; None if nothing can be done.
    #[inline]
    fn make_room(
        &mut self,
        asked: Size,
        changes: &mut Changes<K, A>,
    ) -> Result<Option<u32>, CacheError> {
        changes.reserve(1)?;
        if let Some((page, size)) = self.rooms.grow_page()? {
            changes.push_reserved(CacheChange::PageGrown { page, size });
            return Ok(Some(page));
        }
        if let Some((page, size)) = self.rooms.add_page()? {
            changes.push_reserved(CacheChange::PageAdded { page, size });
            return Ok(Some(page));
        }
        Ok(self.evict(changes))
    }

    // Of the entries that lie on a page the least recently used one goes, if this frame didn't use it: its page.
    #[inline]
    fn evict(&mut self, changes: &mut Changes<K, A>) -> Option<u32> {
        let (number, entry) = match oldest_lying(&mut self.entries) {
            Some((number, entry)) => (number, entry),
            _ => {
                return None;
            }
        };
        if entry.frame == self.frame {
            return None;
        }
        take_out(&mut self.rooms, &mut self.entries, number, entry);
        self.counts.evictions = count(self.counts.evictions);
        let place = place_of(entry, &self.rooms.options());
        let key = entry.key;
        changes.push_reserved(CacheChange::Evicted { key, place });
        Some(entry.page)
    }
}
