// Erased from crates/atlas_cache/src/cache/repacking.rt by rust/erase: don't edit.
//! A page's entries placed anew.

use crate::atlas_cache::cache::holding::place_of;
use crate::atlas_cache::cache::TextureCache;
use crate::atlas_cache::changes::{CacheChange, Changes};
use crate::atlas_cache::options::CacheOptions;
use crate::atlas_entries::entries::{Entries, Entry};
use crate::atlas_entries::error::CacheError;
use crate::guillotiere::{AllocId, Allocation, Change};
use wollemigo_support::alloc::Allocator;
use wollemigo_support::hash::{BuildHasher, Hash};
use wollemigo_support::prelude::Vec;

// The rectangles of the entries of a page, the most recently used first.
#[inline]
fn rectangles_of<K: Copy + Eq + Hash, S: BuildHasher, A: Allocator + Copy>(
    entries: &Entries<K, S, A>,
    page: u32,
    alloc: A,
) -> Result<Vec<Allocation, A>, CacheError> {
    let mut held = Vec::new(alloc);
    let mut next = entries.newest();
    for _ in 0..entries.len() {
        let number = match next {
            Some(number) => number,
            _ => {
                return Ok(held);
            }
        };
        let found = entries.entry(number);
        next = entries.older(number);
        if found.page == page {
            held.push(Allocation {
                id: found.id,
                rectangle: found.rectangle,
            })?;
        }
    }
    Ok(held)
}

// Puts changes into the order of their former ids.
#[inline]
fn sort_by_id<A: Allocator>(changes: &mut Vec<Change, A>) {
    changes.sort_unstable_by_key(|change| change.old.id.serialize());
}

// The change of an id, if there is one. Takes as many steps as the logarithm of their number.
#[inline]
fn change_for(changes: &[Change], id: AllocId) -> Option<Change> {
    match changes.binary_search_by_key(&id.serialize(), |change| change.old.id.serialize()) {
        Ok(at) => Some(changes[at]),
        Err(_) => None,
    }
}

// An entry of the page is moved if a change names its id, and goes if none does. Either is told.
#[inline]
fn settle<K: Copy + Eq + Hash, S: BuildHasher, A: Allocator + Copy>(
    entries: &mut Entries<K, S, A>,
    options: &CacheOptions,
    moves: &[Change],
    number: u32,
    entry: Entry<K>,
    changes: &mut Changes<K, A>,
) {
    let from = place_of(entry, options);
    let key = entry.key;
    match change_for(moves, entry.id) {
        Some(change) => {
            let moved = Entry {
                id: change.new.id,
                rectangle: change.new.rectangle,
                ..entry
            };
            entries.move_to(number, moved.page, moved.id, moved.rectangle);
            let to = place_of(moved, options);
            changes.push_reserved(CacheChange::Moved { key, from, to });
        }
        None => {
            entries.remove(number);
            changes.push_reserved(CacheChange::Evicted { key, place: from });
        }
    }
}

// Each entry of the page is moved or goes, the most recently used first.
#[inline]
fn settle_all<K: Copy + Eq + Hash, S: BuildHasher, A: Allocator + Copy>(
    entries: &mut Entries<K, S, A>,
    options: &CacheOptions,
    moves: &[Change],
    page: u32,
    changes: &mut Changes<K, A>,
) {
    let mut next = entries.newest();
    for _ in 0..entries.len() {
        let number = match next {
            Some(number) => number,
            _ => {
                return;
            }
        };
        let entry = entries.entry(number);
        next = entries.older(number);
        if entry.page == page {
            settle(entries, options, moves, number, entry, changes);
        }
    }
}

impl<K: Copy + Eq + Hash, S: BuildHasher, A: Allocator + Copy> TextureCache<K, S, A> {
    /// Places the entries of a page anew, so that what is free comes together: the largest first, by the area of
    /// `rectangle`, and among equal areas the most recently used; the page doesn't grow. Returns whether there is such a page; if
    /// not, nothing changes. Each entry of the page is added to the changes once, the most recently used first: as
    /// `Moved`, also where it stays in its place, or as `Evicted`, which is counted, where it found no room when its
    /// turn came, also if this frame uses it: `repack_keeping_all` evicts none. Every other entry stays, and so do the order of use, the
    /// frame, the options and what entries are in reserve; the page may have no slots in reserve then.
    ///
    /// A place that an entry moves to can overlap one that a later change moves from: copy all pixels from the page as
    /// it was before the call. `Slots` if the page has too few of them, which takes more than 4,194,303 entries on it, `Memory` if
    /// memory is refused; then nothing changes. Takes as many steps as there are entries of all pages, and for each entry of the page
    /// one request of an atlas and as many steps as the logarithm of their number.
    #[inline]
    pub fn repack(&mut self, page: u32, changes: &mut Changes<K, A>) -> Result<bool, CacheError> {
        self.repack_page(page, false, changes)
    }

    /// Places the entries of a page anew as `repack` does, but only where each of them finds room: no key goes, and none is counted as
    /// evicted. Returns whether it did; if not, there is no such page, or `repack` would evict some of its entries, and nothing changes.
    /// Takes what `repack` takes, also where nothing changes.
    #[inline]
    pub fn repack_keeping_all(
        &mut self,
        page: u32,
        changes: &mut Changes<K, A>,
    ) -> Result<bool, CacheError> {
        self.repack_page(page, true, changes)
    }

    // Places the entries of a page anew; if `whole`, only where each finds room. Whether it did.
    #[inline]
    fn repack_page(
        &mut self,
        page: u32,
        whole: bool,
        changes: &mut Changes<K, A>,
    ) -> Result<bool, CacheError> {
        if page >= self.rooms.len() {
            return Ok(false);
        }
        let before = self.entries.len();
        changes.reserve(before)?;
        let held = rectangles_of(&self.entries, page, *changes.allocator())?;
        let mut list = match self.rooms.repack(page, held, whole)? {
            Some(list) => list,
            _ => {
                return Ok(false);
            }
        };
        sort_by_id(&mut list.changes);
        let options = self.rooms.options();
        settle_all(&mut self.entries, &options, &list.changes, page, changes);
        let gone = (before - self.entries.len()) as u64;
        self.counts.evictions = self.counts.evictions.saturating_add(gone);
        Ok(true)
    }
}
