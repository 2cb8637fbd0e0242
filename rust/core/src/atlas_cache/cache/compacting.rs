// Erased from crates/atlas_cache/src/cache/compacting.rt by rust/erase: don't edit.
//! What lies on the last page moves to the pages before it, a few pixels at a time.

use crate::atlas_cache::cache::holding::place_of;
use crate::atlas_cache::cache::TextureCache;
use crate::atlas_cache::changes::{CacheChange, Changes};
use crate::atlas_cache::rooms::repacking::{area_of, size_of_box};
use crate::atlas_cache::rooms::Rooms;
use crate::atlas_entries::entries::{Entries, Entry};
use crate::atlas_entries::error::CacheError;
use wollemigo_support::alloc::Allocator;
use wollemigo_support::hash::{BuildHasher, Hash};

// An entry that lies on the last page, on no more pixels than are left, moves to the first page before it that has room for it: how many
// pixels moved, 0 if it stays.
#[inline]
fn visit<K: Copy + Eq + Hash, S: BuildHasher, A: Allocator + Copy>(
    rooms: &mut Rooms<A>,
    entries: &mut Entries<K, S, A>,
    last: u32,
    number: u32,
    left: u64,
    changes: &mut Changes<K, A>,
) -> Result<u64, CacheError> {
    let entry = entries.entry(number);
    let pixels = area_of(entry.rectangle);
    if entry.page != last || pixels > left {
        return Ok(0);
    }
    let asked = size_of_box(entry.rectangle);
    let (page, granted) = match rooms.place_before(0, last as usize, asked)? {
        Some((page, granted)) => (page, granted),
        _ => {
            return Ok(0);
        }
    };
    rooms.free(last, entry.id);
    entries.move_to(number, page, granted.id, granted.rectangle);
    let moved = Entry {
        page,
        id: granted.id,
        rectangle: granted.rectangle,
        ..entry
    };
    let from = place_of(entry, &rooms.options());
    let to = place_of(moved, &rooms.options());
    let key = entry.key;
    changes.push_reserved(CacheChange::Moved { key, from, to });
    Ok(pixels)
}

// Each entry is visited, the most recently used first: how many pixels moved.
#[inline]
fn visit_all<K: Copy + Eq + Hash, S: BuildHasher, A: Allocator + Copy>(
    rooms: &mut Rooms<A>,
    entries: &mut Entries<K, S, A>,
    last: u32,
    pixels: u64,
    changes: &mut Changes<K, A>,
) -> Result<u64, CacheError> {
    let mut moved = 0;
    let mut next = entries.newest();
    for _ in 0..entries.len() {
        let number = match next {
            Some(number) => number,
            _ => {
                return Ok(moved);
            }
        };
        next = entries.older(number);
        moved += visit(rooms, entries, last, number, pixels - moved, changes)?;
    }
    Ok(moved)
}

impl<K: Copy + Eq + Hash, S: BuildHasher, A: Allocator + Copy> TextureCache<K, S, A> {
    /// Moves keys of the last page to the pages before it, so that a `shrink` can give it back, as many as some pixels are enough for:
    /// after a burst a call in each frame empties page after page, where a `repack` would take too long for one. The entries are looked
    /// at in the order of their use, the most recently used first: each that lies on the last page, on no more pixels, padding
    /// included, than are left, moves to the first page before it that has room for it, and is added to the changes as `Moved`. No key
    /// goes, none counts as used or as evicted, and no page grows or goes. Returns how many pixels moved: 0 where there are
    /// fewer than two pages, or where no key moved.
    ///
    /// All moves lead from the last page to other ones, on which nothing comes free: so the pixels can be copied one after another. The
    /// list of changes is asked for room for as many as there are entries; with `Memory`, if that is refused, nothing changes. `Memory` or
    /// `Slots` that a page is refused end the call: what was moved before stays moved, and is listed. Takes a step for each entry of all
    /// pages, and for each of the last page that is small enough a request of each page before it that isn't known to have no room.
    #[inline]
    pub fn compact(&mut self, pixels: u64, changes: &mut Changes<K, A>) -> Result<u64, CacheError> {
        let pages = self.rooms.len();
        if pages < 2 {
            return Ok(0);
        }
        changes.reserve(self.entries.len())?;
        visit_all(
            &mut self.rooms,
            &mut self.entries,
            pages - 1,
            pixels,
            changes,
        )
    }
}
